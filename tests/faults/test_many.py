"""`tests/faults/many`, on small programs in C in raftbench's place: it makes the faults that it is asked for, and finds what a program does wrong."""
import os
import pathlib
import re
import subprocess
from collections.abc import Iterator

from tests.harness import TESTS

# Takes memory, reads the script and writes; what it does wrong is put in the place of the comments.
PROGRAM = r"""
#include <fcntl.h>
#include <stdio.h>
#include <stdlib.h>
#include <string.h>
#include <unistd.h>
static int failed(int status, const char *why) {
    dprintf(2, "raftbench: %s\n", why);
    return status;
}
int main(int count, char **words) {
    char byte, text[40];
    for (int i = 0; i < 30; i++) if (!malloc(10)) { /* no memory */ return failed(5, "out of memory"); }
    if (!strcmp(words[1], "lsp")) strcpy(text, "Content-Length: 2\r\n\r\n{}");
    else {
        int file = open("script.txt", O_RDONLY), got;
        while ((got = read(file, &byte, 1)) > 0);
        if (got < 0) return failed(4, "input or output failed");
        strcpy(text, "20 directives, 0 mismatches\n");
    }
    if (!strcmp(words[1], "lsp") || !strcmp(words[1], "session")) {
        int got;
        while ((got = read(0, &byte, 1)) > 0);
        if (got < 0) return failed(4, "input or output failed");
    }
    for (size_t at = 0; at < strlen(text); at++)
        if (write(1, text + at, 1) != 1) { /* no output */ return failed(4, "input or output failed"); }
    return 0;
}
"""
WRONG = {
    "crashes without memory": ("no memory", "abort();", "status -6"),
    "another status": ("no output", "return failed(3, \"script refused\");", "status 3"),
    "says nothing": ("no memory", "return 5;", "it said"),
    "goes on": ("no output", "if (at < 9) { write(1, \"x\", 1); return failed(4, \"x\"); }", "it answered"),
    "tears the script": ("no memory", "fclose(fopen(\"script.txt\", \"w\")); return 5;", "torn"),
}


def tried(room: pathlib.Path, name: str, text: str) -> tuple[int, str]:
    """The status and the output of the tool on a program."""
    source, program = room / f"{name}.c", room / name
    source.write_text(text)
    subprocess.run(["cc", "-w", "-O1", "-fno-builtin-malloc", "-o", program, source], check=True)
    words = ["--calls", "103", "--refusals", "205", "--kills", "6", "--jobs", "2"]
    done = subprocess.run([TESTS / "faults" / "many", *words], capture_output=True, text=True, env={**os.environ, "RAFTBENCH": str(program)}, timeout=600)
    return done.returncode, done.stdout + done.stderr


def test_all_are_made(room: pathlib.Path) -> Iterator[str]:
    status, output = tried(room, "right", PROGRAM)
    counts = [sum(map(int, re.findall(rf"(\d+) {kind}", output))) for kind in ("failed calls", "refused allocations", "kills")]
    if status or counts != [103, 205, 6] or not output.endswith("\n0 wrong\n"):
        yield f"{status}, {counts}: {output}"


def test_wrong_is_found(room: pathlib.Path) -> Iterator[str]:
    for name, (place, what, wanted) in WRONG.items():
        status, output = tried(room, name.replace(" ", "-"), PROGRAM.replace(f"/* {place} */", what))
        if status != 1 or wanted not in output:
            yield f"a program that {name}: {status}, {output}"
