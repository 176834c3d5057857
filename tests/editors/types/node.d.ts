// As much of Node as the extension of editors/vscode calls. It agrees with Debian's node-types-node 18.

declare module "child_process" {
  interface Child {
    stdin: { write(bytes: Buffer): boolean; on(event: "error", hear: (error: Error) => void): void };
    stdout: { on(event: "data", hear: (chunk: Buffer) => void): void };
    exitCode: number | null;
    signalCode: string | null;
    kill(): boolean;
    on(event: "error", hear: (error: Error) => void): void;
    on(event: "exit" | "close", hear: (status: number | null, signal: string | null) => void): void;
  }
  type Place = { cwd?: string; env?: Record<string, string | undefined> };
  export function spawn(program: string, words: string[], options: { stdio: ["pipe", "pipe", "ignore"] } & Place): Child;
  export function spawn(program: string, words: string[], options: { stdio: ["ignore", "pipe", "pipe"] } & Place): Omit<Child, "stdin"> & { stderr: Child["stdout"] };
}

declare module "fs" {
  export function mkdtempSync(prefix: string): string;
  export function writeFileSync(file: string, content: Buffer | string): void;
  export function rmSync(file: string, options: { recursive: boolean; force: boolean }): void;
}

declare module "os" {
  export function tmpdir(): string;
}

declare module "path" {
  export function join(...parts: string[]): string;
  export function basename(file: string): string;
  export function dirname(file: string): string;
}

declare class Buffer {
  static alloc(size: number): Buffer;
  static from(text: string): Buffer;
  static concat(parts: Buffer[]): Buffer;
  length: number;
  indexOf(text: string): number;
  subarray(from: number): Buffer;
  toString(encoding?: "latin1" | "utf8", from?: number, to?: number): string;
}

declare const process: { pid: number; env: Record<string, string | undefined> };
declare const module: { exports: unknown };
declare function require(name: string): any;
declare function setTimeout(call: () => void, milliseconds: number): { readonly timer: unique symbol };
declare function clearTimeout(timer: ReturnType<typeof setTimeout>): void;
