"""A case of the program as a text: the command, how it ends, and what it reads and writes, in parts.

    # A note, if there are any.
    $ raftbench run SCRIPT --every 4
    status 1
    -- script --
    tick-heartbeat 1
    ----
    -- output --
    ..

The command is spelled as in a shell: a word with blanks is quoted, `$'..'` has escapes, and `<&-`, `>&-`, `2>&-`, `>FILE` and `2>FILE` close
a stream or send it to a file. It runs in an empty folder that has the files of the case. SCRIPT is the path of the case's script, in what is
written too. `TIME` is what `check` took.

Below the command each of these is a line of its own: `status N`; `any output`, `any errors` (not compared); `errors have LINE` (one of their
lines); `cut to M..N` (it is run with its input, or else its script, cut to each of these lengths, and answers the same each time); `again`
(it is run once more with its output as the script, and answers the same).

The parts are `script`, `input`, `file NAME`, `output`, `errors` and `after NAME` (a file that the command changes). What isn't there is empty,
or stays. A part has its lines as they are. If it is `(escaped)`, `\\n`, `\\r`, `\\t`, `\\\\` and `\\xNN` are single bytes, and a `\\` at the
end of a line joins the next line to it. If it is `(repeated)`, each line is a count, a blank and a text with such escapes that is repeated so often,
without an end of its own; `\\k` is the number of the repetition.
"""
import dataclasses
import enum
import pathlib
import re

STREAMS = re.compile(r"<&-|>&-|2>&-|2?>[^&\s]\S*")
TOKEN = re.compile(r"\$'((?:[^'\\]|\\.)*)'|'([^']*)'|(\S+)")
BARE_WORD = re.compile(r"[\w./:=,@%+()!*?~#^-]+", re.ASCII)
HEADING = re.compile(r"-- (script|input|output|errors|file .+?|after .+?)(?: \((escaped|repeated)\))? --")
SINGLE = {"n": b"\n", "r": b"\r", "t": b"\t", "\\": b"\\", "'": b"'"}
ESCAPE = re.compile(rb"\\(x[0-9a-f]{2}|[ -~])")
# What is seen of a text as it is: no carriage return, no control character, no blank at an end of a line, no odd blank.
UNSEEN = re.compile("[\x00-\x08\x0b-\x1f\x7f-\x9f\xa0\u200b-\u200f\u2028-\u202e\u2066-\u2069\ufeff]|[ \t]$", re.M)
# The longest line of a text that is written as it is, where it can be written as repetitions.
LONGEST_LINE = 2000


class BadCase(Exception):
    """A text that isn't a case; the message says why."""


class Form(enum.Enum):
    """How a part is written."""

    PLAIN = ""
    ESCAPED = "escaped"
    REPEATED = "repeated"


@dataclasses.dataclass(frozen=True)
class Part:
    """The bytes of a part, and the lines by which it is written if these are repetitions."""

    data: bytes
    repeated: str = ""


@dataclasses.dataclass(frozen=True)
class Case:
    """A command, what it is given, and what must come of it."""

    words: tuple[bytes, ...]
    status: int
    notes: tuple[str, ...] = ()
    streams: tuple[str, ...] = ()
    not_compared: frozenset[str] = frozenset()
    error_lines: tuple[str, ...] = ()
    lengths: tuple[tuple[int, int], ...] = ()
    again: bool = False
    parts: dict[str, Part] = dataclasses.field(default_factory=dict)

    def data(self, name: str) -> bytes | None:
        """The bytes of a part, or None if the case doesn't have it."""
        part = self.parts.get(name)
        return None if part is None else part.data

    def files(self, kind: str) -> dict[str, bytes]:
        """The parts `file NAME` or `after NAME`, by name."""
        return {name.partition(" ")[2]: part.data for name, part in self.parts.items() if name.startswith(f"{kind} ")}


# -- texts

def unescaped(text: str, count: int = 1) -> bytes:
    """The bytes that a text with escapes stands for, in its repetition of this number. Raises BadCase."""

    def single(found: re.Match[bytes]) -> bytes:
        code = found[1].decode()
        if code == "k":
            return b"%d" % count
        if code[0] == "x" and len(code) == 3:
            return bytes([int(code[1:], 16)])
        if code not in SINGLE:
            raise BadCase(f"no escape: \\{code}")
        return SINGLE[code]

    return ESCAPE.sub(single, text.encode())


def escaped(data: bytes) -> str:
    """A text with escapes, on one line, that stands for these bytes."""

    def shown(character: str) -> str:
        code = ord(character)
        if 0xDC80 <= code <= 0xDCFF:
            return f"\\x{code - 0xDC00:02x}"
        if character in "\n\r\t\\":
            return {"\n": "\\n", "\r": "\\r", "\t": "\\t", "\\": "\\\\"}[character]
        if UNSEEN.match(character) and character != " ":
            return "".join(f"\\x{byte:02x}" for byte in character.encode())
        return character

    return "".join(shown(it) for it in data.decode(errors="surrogateescape"))


def escaped_lines(data: bytes) -> str:
    """Lines with escapes that stand for these bytes."""
    lines = []
    for line in re.findall(rb"[^\n]*\n|[^\n]+\Z", data):
        text = escaped(line.removesuffix(b"\n"))
        text = re.sub(r" $", r"\\x20", text)
        text = re.sub(r"^-- ", r"\\x2d- ", text)
        lines.append(text + ("\n" if line.endswith(b"\n") else "\\\n"))
    return "".join(lines)


def repeated_data(text: str) -> bytes:
    """What lines of repetitions stand for."""
    whole = []
    for line in text.splitlines():
        count, _, one = line.partition(" ")
        if not count.isdigit():
            raise BadCase(f"no count: {line[:80]}")
        if re.search(r"(?<!\\)(?:\\\\)*\\k", one):
            whole += [unescaped(one, number) for number in range(1, int(count) + 1)]
        else:
            whole.append(int(count) * unescaped(one))
    return b"".join(whole)


def read_part(text: str, form: Form) -> Part:
    """A part of the lines below its heading. Raises BadCase."""
    if form is Form.REPEATED:
        return Part(repeated_data(text), text)
    if form is Form.PLAIN:
        return Part(text.encode())
    return Part(b"".join(unescaped(line[:-1] if is_joined(line) else line + "\n") for line in text.split("\n")[:-1]))


def is_joined(line: str) -> bool:
    """Whether a line ends in a backslash that no other one escapes."""
    return (len(line) - len(line.rstrip("\\"))) % 2 == 1


def is_plain(data: bytes) -> bool:
    """Whether these bytes can be written as they are."""
    try:
        text = data.decode()
    except UnicodeDecodeError:
        return False
    return (not text or text.endswith("\n")) and not UNSEEN.search(text) and not re.search(r"^-- ", text, re.M)


def write_part(name: str, part: Part) -> str:
    """A part with its heading."""
    if part.repeated:
        return f"-- {name} (repeated) --\n{part.repeated}"
    if is_plain(part.data):
        return f"-- {name} --\n{part.data.decode()}"
    return f"-- {name} (escaped) --\n{escaped_lines(part.data)}"


# -- the command

def read_command(line: str) -> tuple[tuple[bytes, ...], tuple[str, ...]]:
    """The words behind the program's name, and what is said of its streams. Raises BadCase."""
    rest = line.removeprefix("$ raftbench")
    if rest == line:
        raise BadCase(f"no command: {line}")
    words, streams = [], []
    for found in TOKEN.finditer(rest):
        with_escapes, quoted, bare = found.groups()
        if with_escapes is not None:
            words.append(unescaped(with_escapes))
        elif quoted is not None:
            words.append(quoted.encode())
        elif STREAMS.fullmatch(bare):
            streams.append(bare)
        else:
            words.append(bare.encode())
    return tuple(words), tuple(streams)


def written_word(word: bytes) -> str:
    """A word as a shell would read it."""
    try:
        text = word.decode()
    except UnicodeDecodeError:
        text = ""
    if text and BARE_WORD.fullmatch(text):
        return text
    if is_plain(word + b"\n") and "'" not in text and "\n" not in text or not word:
        return f"'{text}'"
    return "$'" + escaped(word).replace("'", "\\'") + "'"


# -- cases

def read_case(text: str) -> Case:
    """Reads a case. Raises BadCase."""
    head, *rest = re.split(r"^(-- .* --)\n", text, flags=re.M)
    parts: dict[str, Part] = {}
    for heading, body in zip(rest[::2], rest[1::2]):
        found = HEADING.fullmatch(heading)
        if not found or found[1] in parts:
            raise BadCase(f"no part, or twice the same: {heading}")
        parts[found[1]] = read_part(body, Form(found[2] or ""))
    return read_head(head.splitlines(), parts)


def read_head(lines: list[str], parts: dict[str, Part]) -> Case:
    """A case of the lines above its parts. Raises BadCase."""
    notes = tuple(line for line in lines if line.startswith("#"))
    commands = [line for line in lines if line.startswith("$ ")]
    if len(commands) != 1:
        raise BadCase(f"{len(commands)} commands")
    words, streams = read_command(commands[0])
    told: dict[str, list[str]] = {"status": [], "any": [], "errors have": [], "cut to": [], "again": []}
    for line in lines:
        found = re.fullmatch(r"(status|any|errors have|cut to|again)(?: (.*))?", line)
        if found:
            told[found[1]].append(found[2] or "")
        elif line not in (*notes, *commands):
            raise BadCase(f"no line of a case: {line}")
    if len(told["status"]) != 1 or not set(told["any"]) <= {"output", "errors"}:
        raise BadCase("no status, or something else that may be any")
    lengths = [re.fullmatch(r"(\d+)\.\.(\d+)", it) for it in told["cut to"]]
    return Case(
        words, int(told["status"][0]), notes, streams, frozenset(told["any"]), tuple(told["errors have"]),
        tuple((int(it[1]), int(it[2])) for it in lengths if it), bool(told["again"]), parts,
    )


def write_case(case: Case) -> str:
    """The text of a case."""
    lines = [*case.notes, " ".join(["$ raftbench", *map(written_word, case.words), *case.streams]), f"status {case.status}"]
    lines += [f"any {name}" for name in sorted(case.not_compared)]
    lines += [f"errors have {line}" for line in case.error_lines]
    lines += [f"cut to {first}..{last}" for first, last in case.lengths]
    lines += ["again"] * case.again
    parts = [write_part(name, case.parts[name]) for name in sorted(case.parts, key=place_of)]
    return "".join(f"{line}\n" for line in lines) + "".join(parts)


def place_of(name: str) -> tuple[int, str]:
    """Where a part is in the text of a case."""
    return ["script", "input", "file", "output", "errors", "after"].index(name.split(" ")[0]), name


def cases_below(folder: pathlib.Path, word: str = "") -> dict[str, Case]:
    """The cases of a folder and those below it with this word in their names, which are their paths from there without the ending. Raises
    BadCase, with the file's name."""
    found = {}
    for path in sorted(folder.rglob("*.case")):
        name = str(path.relative_to(folder).with_suffix(""))
        if word not in name:
            continue
        try:
            found[name] = read_case(path.read_bytes().decode())
        except (BadCase, UnicodeDecodeError) as error:
            raise BadCase(f"{path}: {error}") from error
    return found


def scripts_below(folder: pathlib.Path) -> dict[str, bytes]:
    """The scripts of the cases of a folder, by their names with hyphens for slashes."""
    return {name.replace("/", "-"): data for name, case in cases_below(folder).items() if (data := case.data("script")) is not None}
