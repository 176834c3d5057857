"""What the report of `check` shows: lines of heads, warnings, what differs, and the formats for programs."""
import itertools
import json
import pathlib
import random
import re
import time
import xml.etree.ElementTree as ElementTree
from collections.abc import Callable, Iterator
from typing import Any

from tests.check.checking import ACCEPTED, BAD, GOOD, UNKNOWN, UNWRITTEN, differs, files, listed, mismatch, run, totals, tree


def test_lines_of_heads(room: pathlib.Path) -> Iterator[str]:
    """Beside a plain count: each head's name is counted, and stands on the line that is told."""
    parts = [
        b"# lead\r\n\r\nlog-level info\r\n----\r\nno\r\n\r\n",
        b"log-level one-1\n----\n----\nx\n\ny\n----\n----\n\n",
        b"# no empty line below this double form\nlog-level one-2\n----\n----\na\n\nb\n----\n----\n",
        b"log-level \\\none-3\n----\nno\n\n\n\n# between\r\r\n",
        b"\t log-level one-4\n----\n\n",
        b"log-level one-5\r\n----\r\n----\r\n\r\n----\r\n\r\nlog-level is no head here\r\n----\r\n----\r\n",
        b"log-level one-6\ninput\n----\nx\n\n",
    ]
    name = re.compile(rb"[ \t]*log-level (one-|info|\\)")
    dice = random.Random(1)
    for _ in range(60):
        text = b"".join(dice.choices(parts, k=12)) + b"log-level one-7\n----\nx"
        (room / "a.txt").write_bytes(text)
        told = [int(line) for line in re.findall(rb"^a\.txt:(\d+): log-level (?:one-\d|info)$", run(room, "a.txt")[1], re.M)]
        counted = [number for number, line in enumerate(text.split(b"\n"), 1) if name.match(line)]
        if told != counted or len(counted) != 13:
            yield f"{told}, and not {counted}, of {text!r}"


def comments(count: int) -> bytes:
    """So many bytes of comments."""
    line = b"#" * 63 + b"\n"
    left = count % len(line) or len(line)
    return line * ((count - left) // len(line)) + b"#" * (left - 1) + b"\n"


def test_what_is_wrong(room: pathlib.Path) -> Iterator[str]:
    """Each fault is told with its line and in a sentence."""
    many = b"log-level info\n----\nok\n\n"
    for name, text, told in [
        ("a", b"#" * 4_194_305, b": the script, or its canonical text, has more than 4,194,304 bytes; cut it into several scripts"),
        ("b", many + b"# " + b"x" * 65_535 + b"\n", b":5: this line has more than 65,536 bytes; usually an end of line is missing, or the file is not a script"),
        ("c", many + b"set (\n----\n", b":5: this is not a name with arguments; usually a parenthesis is not closed or has no name= before it, a backslash is missing, or an empty line cut the output above"),
        ("d", b"\r\n" + many + b"set\n\n", b":6: no line ---- follows this directive; usually it was left out, or an empty line cut the output above"),
        ("e", many + b"set\n----\n----\nx\n\n", b":6: the output below this ---- has no end; usually an empty line is missing before the next directive, or the two closing ---- are missing"),
        ("f", many + b"set\n----\nx\nset\n----\n", b":6: the output below this ---- has no end; usually an empty line is missing before the next directive, or the two closing ---- are missing"),
        ("g", many * 20_001, b": the script has more than 20,000 directives; cut it into several scripts"),
        ("h", many + b"set " + b" ".join(b"a" for _ in range(65)) + b"\n----\n", b":5: this directive has more than 64 arguments, or more than 64 values of one; usually a backslash takes in a line too many"),
        ("i", comments(4_194_304 - len(GOOD)) + GOOD, b": the script, or its canonical text, has more than 4,194,304 bytes; cut it into several scripts"),
    ]:
        (room / name).write_bytes(text)
        yield from differs(name, run(room, name), (3, name.encode() + told + b"\n" + totals(1, 0, refused=1), b""))


def test_text_that_is_too_long_to_accept(room: pathlib.Path) -> Iterator[str]:
    """The script is as long as it may be, and with the output longer."""
    shortest = b"log-level info\n----\n\n"
    text = comments(4_194_304 - len(shortest)) + shortest
    (room / "a.txt").write_bytes(text)
    files(room, b_txt=BAD)
    came = run(room, "--accept", "a.txt", "b.txt")
    line = text.count(10) - 2
    shown = f"a.txt:{line}: log-level info\n+ ok\n\n".encode() + mismatch("b.txt") + b"b.txt: accepted 1 output\n" + listed("a.txt", line=line)
    told = UNWRITTEN + b"a.txt: with its outputs the script would be too long\n"
    yield from differs("it", came, (4, shown + totals(2, 2, 1, accepted=1, failed=1), told))
    if tree(room) != {"a.txt": text, "b.txt": ACCEPTED}:
        yield "it leaves another text"


def test_output_that_no_script_can_expect(room: pathlib.Path) -> Iterator[str]:
    """A line of it is too long, and not the script: it is told of which directive."""
    quiet = ["add-nodes 1 voters=(1) index=10", "campaign 1", "stabilize"]
    text = "".join(f"{head} log-level=none\n----\nok\n\n" for head in quiet) + "propose-conf-change 1\n" + ("u1 " * 20_000 + "\n") * 2 + "----\nok\n\n"
    line = text.count("\n") + 1
    text += "stabilize\n----\n\n" + BAD.decode()
    (room / "a.txt").write_text(text)
    status, _, told = run(room, "--accept", "a.txt")
    why = f"a.txt:{line}: this output has a line of more than 65,536 bytes, which no script can expect\n".encode()
    if (status, told) != (4, UNWRITTEN + why) or (room / "a.txt").read_text() != text:
        yield f"{status} {told!r}"
    if run(room, "--accept", f"a.txt:{line + 3}")[0] != 1 or (room / "a.txt").read_bytes() != text.encode().replace(BAD, ACCEPTED):
        yield "another output of the script can't be accepted"


def most_in_common(one: list[bytes], other: list[bytes]) -> int:
    """How many lines a longest common subsequence has (Wagner and Fischer, 1974)."""
    row = [0] * (len(other) + 1)
    for line in one:
        last = 0
        for at, beside in enumerate(other, 1):
            last, row[at] = row[at], last + 1 if line == beside else max(row[at], row[at - 1])
    return row[-1]


def test_signs_are_as_few_as_can_be(room: pathlib.Path) -> Iterator[str]:
    """Of expectations that are made of the output by leaving lines out, doubling them and putting others in."""
    output = [b"INFO %d started at 1/10 with voters=(1)" % node for node in range(1, 33)]
    dice = random.Random(1)
    for _ in range(150):
        ways: list[Callable[[bytes], list[bytes]]] = [
            lambda line: [line], lambda line: [], lambda line: [line, line], lambda line: [b"x"], lambda line: [dice.choice(output)],
        ]
        kinds = dice.choices(ways, weights=(dice.choice((1, 5, 20)), 1, 1, 1, 1), k=len(output))
        expected = [new for line, kind in zip(output, kinds) for new in kind(line)]
        (room / "a.txt").write_bytes(b"add-nodes 32 voters=(1) index=10\n----\n" + b"".join(line + b"\n" for line in expected) + b"\n")
        shown = run(room, "a.txt")[1].split(b"\n")[1:-3]
        common = most_in_common(expected, output)
        signs = [sum(line.startswith(sign) for line in shown) for sign in (b"- ", b"+ ")]
        if expected != output and signs != [len(expected) - common, len(output) - common]:
            yield f"{signs} signs, where {common} lines are in common, of {expected!r}"
        # With the folds filled in, both sides can be read off it.
        whole, at = [], 0
        for line in shown:
            folded = re.fullmatch(rb"  \.\. (\d+) lines?", line)
            lines = [b"  " + it for it in expected[at:at + int(folded[1])]] if folded else [line]
            whole += lines
            at += sum(not it.startswith(b"+ ") for it in lines)
        for sign, due in ((b"- ", expected), (b"+ ", output)):
            if expected != output and [line[2:] for line in whole if line.startswith((sign, b"  "))] != due:
                yield f"{sign!r}: {shown!r}, of {expected!r}"


def test_too_much_to_compare(room: pathlib.Path) -> Iterator[str]:
    """Two lists of 2,100 lines with one in common in the middle: there each side is shown whole. Of 1,900 lines it is found."""
    for count, sign in ((1900, b"  "), (2100, b"- ")):
        quiet = ["add-nodes 1 voters=(1) index=10 log-level=none", "campaign 1 log-level=none", "stabilize log-level=none", *["propose 1 a"] * count, "stabilize log-level=none"]
        wrong = [b'1/1000 "a"' if line == 500 else b"%d" % line for line in range(count)]
        text = "".join(f"{head}\n----\nok\n\n" for head in quiet).encode() + b"raft-log 1\n----\n" + b"".join(line + b"\n" for line in wrong) + b"\n"
        (room / "a.txt").write_bytes(text)
        began = time.monotonic()
        status, shown, _ = run(room, "a.txt")
        lines = shown.split(b"\n")
        if status != 1 or sign + wrong[500] not in lines or sum(line.startswith(b"- ") for line in lines) != count - (sign == b"  ") or time.monotonic() - began > 10:
            yield f"{count}: {status} after {time.monotonic() - began:.1f} s: {shown[:300]!r}"


def test_too_much_to_compare_in_a_script(room: pathlib.Path) -> Iterator[str]:
    """Lists of 1,990 lines with one in common in the middle: 4 million cells each. Five are compared, and then whole: but a short one still is."""
    quiet = ["add-nodes 1 voters=(1) index=10 log-level=none", "campaign 1 log-level=none", "stabilize log-level=none", *["propose 1 a"] * 1990, "stabilize log-level=none"]
    same = b'1/1000 "a"'
    wrong = b"".join((same if line == 500 else b"%d" % line) + b"\n" for line in range(1990))
    text = "".join(f"{head}\n----\nok\n\n" for head in quiet).encode() + (b"raft-log 1\n----\n" + wrong + b"\n") * 8
    (room / "a.txt").write_bytes(text + b"status 1\n----\nx\n\n")
    began = time.monotonic()
    status, shown, _ = run(room, "a.txt")
    lines = shown.split(b"\n")
    signs = [line[:2] for line in lines if line[2:] == same and line[:2] != b"+ "]
    if (status, signs) != (1, [b"  "] * 5 + [b"- "] * 3) or time.monotonic() - began > 10:
        yield f"{status} after {time.monotonic() - began:.1f} s: {signs}"


def latin(text: str) -> bytes:
    """The bytes of a text of JSON."""
    return text.encode("latin-1")


ODD = "campaign 1\n----\n----\n\tcaf\u00e9 \"a\\b\", 100%: x\r y\n\n".encode() + bytes(range(1, 9)) + b"\x7f\x80\xff\n----\n----\n"


def odd_files(room: pathlib.Path) -> list[dict[str, Any]]:
    """Scripts of each kind, with the objects that are told of them."""
    refused = b"this is not a name with arguments; usually a parenthesis is not closed or has no name= before it, a backslash is missing, or an empty line cut the output above"
    called = b"this looks like a directive inside an expectation: an empty line is missing before it"
    files(room, a_txt=BAD + b"\n" + ODD, b__c_txt=b"campain  1,2 k=(x)\n----\n" + UNKNOWN + b"\n", d_txt=GOOD, e_txt=b"\nset (\n----\n",
          f_txt=BAD + b"log-level none\n")
    return [
        {"script": b"a.txt", "line": 1, "directive": b"log-level info", "status": b"mismatch", "expected": [b"no"], "output": [b"ok"]},
        {"script": b"a.txt", "line": 5, "directive": b"campaign 1", "status": b"mismatch",
         "expected": ["\tcaf\u00e9 \"a\\b\", 100%: x\r y".encode(), b"", bytes(range(1, 9)) + b"\x7f\x80\xff"], "output": [b"error: no node 1"]},
        {"script": b"b/c.txt", "line": 1, "directive": b"campain 1,2 k=x", "status": b"error", "expected": [UNKNOWN], "output": [UNKNOWN]},
        {"script": b"e.txt", "line": 2, "status": b"refused", "message": refused},
        {"script": b"f.txt", "line": 4, "status": b"warning", "message": called},
        {"script": b"f.txt", "line": 1, "directive": b"log-level info", "status": b"mismatch", "expected": [b"no", b"log-level none"], "output": [b"ok"]},
        {"script": b"nothing", "line": None, "status": b"failed", "message": b"no such file or folder"},
    ]


def in_bytes(value: Any) -> Any:
    if isinstance(value, str):
        return latin(value)
    if isinstance(value, list):
        return [in_bytes(it) for it in value]
    return {name: in_bytes(it) for name, it in value.items()} if isinstance(value, dict) else value


ODD_PATHS = ("a.txt", "b", "d.txt", "e.txt", "f.txt", "nothing")


def totals_object(scripts: int, directives: int, mismatches: int = 0, refused: int = 0, errors: int = 0, warnings: int = 0, failed: int = 0) -> dict[str, Any]:
    """The last object of JSON."""
    return {"status": b"totals", "scripts": scripts, "directives": directives, "mismatches": mismatches, "refused": refused, "errors": errors, "warnings": warnings,
            "accepted": 0, "failed": failed}


def test_json(room: pathlib.Path) -> Iterator[str]:
    """What fails comes first, since it is found first; each object is a line, and gives the bytes back."""
    wanted = odd_files(room)
    for words in ((), ("--brief",), ("--first",), ("--verbose",), ("--color", "always")):
        status, output, told = run(room, "--format", "json", *words, *ODD_PATHS)
        lines = output.split(b"\n")
        if (status, lines[-1], told) != (run(room, *ODD_PATHS)[0], b"", b"nothing: no such file or folder\n") or not output.isascii():
            yield f"{words}: {status} {told!r} {output!r}"
        came = [in_bytes(json.loads(line)) for line in lines[:-1]]
        for here, due in itertools.zip_longest(came, [*wanted[-1:], *wanted[:-1], totals_object(5, 5, 3, 1, 2, 1, 1)]):
            if here != due or list(here) != list(due):
                yield f"{words}: {here}, and not {due}"
    yield from differs("quiet", run(room, "--format=json", "-q", "a.txt"), (1, b"", b""))
    matches = run(room, "--format=json", "d.txt")
    if matches[0] != 0 or in_bytes(json.loads(matches[1])) != totals_object(1, 1) or matches[1].count(b"\n") != 1:
        yield f"what matches: {matches}"


def workflow_command(line: bytes) -> tuple[bytes, dict[bytes, bytes], bytes]:
    """The command, its properties and its message, as GitHub's runner reads them."""
    found = re.fullmatch(rb"::(\w+) ([^\r\n]*?)::([^\r\n]*)", line)
    assert found, f"no command: {line!r}"
    properties = {name: value for name, _, value in (it.partition(b"=") for it in found[2].split(b","))}
    signs = [(b"%0D", b"\r"), (b"%0A", b"\n"), (b"%3A", b":"), (b"%2C", b","), (b"%25", b"%")]
    for name, value in properties.items():
        for sign, byte in signs:
            value = value.replace(sign, byte)
        properties[name] = value
    message = found[3]
    for sign, byte in signs[:2] + signs[4:]:
        message = message.replace(sign, byte)
    return found[1], properties, message


def test_github(room: pathlib.Path) -> Iterator[str]:
    """A message is the diff that the text shows, with what its signs mean."""
    wanted = odd_files(room)
    status, output, _ = run(room, "--format", "github", *ODD_PATHS)
    if status != run(room, *ODD_PATHS)[0]:
        yield f"status {status}"
    lines = output.split(b"\n")
    # Of a.txt only the first mismatch is told, and that there is another.
    wanted = [it for it in wanted if it["line"] != 5]
    commands = {b"mismatch": b"error", b"refused": b"error", b"failed": b"error", b"error": b"warning", b"warning": b"warning"}
    for line, due in itertools.zip_longest(lines[:-1], wanted[-1:] + wanted[:-1]):
        command, properties, message = workflow_command(line)
        title = due.get("directive", b"raftbench")
        at = {} if due["line"] is None else {b"line": b"%d" % due["line"]}
        if (command, properties) != (commands[due["status"]], {b"file": due["script"], **at, b"title": title}):
            yield f"{line!r}, of {due}"
        if due["status"] == b"mismatch":
            shown = run(room, due["script"].decode())[1]
            heading = b"%s:%d: %s\n" % (due["script"], due["line"], title)
            others = b"; 1 other directive differs" if due["script"] == b"a.txt" else b""
            text = shown.split(heading, 1)[1].split(b"\n\n", 1)[0] + b"\n(- expected, + output%s)" % others
        else:
            text = due.get("message", due.get("output", [b""])[0])
        if message.replace(b"\r", b"\\x0d") != text:
            yield f"{message!r}, and not {text!r}"
    (room / "x,y:z%.txt").write_bytes(BAD)
    yield from differs("path", run(room, "--format=github", "x,y:z%.txt"),
                       (1, b"::error file=x%2Cy%3Az%25.txt,line=1,title=log-level info::- no%0A+ ok%0A(- expected, + output)\n", b""))


def test_github_cuts_long_diffs(room: pathlib.Path) -> Iterator[str]:
    """Of a diff of more than 4,096 bytes the whole lines within these are told, and how many bytes follow."""
    for name, lines in {"long": [b"line %d of many" % at for at in range(300)], "wide": [b"x" * 5_000]}.items():
        files(room, a_txt=b"log-level info\n----\n" + b"".join(line + b"\n" for line in lines))
        _, shown, _ = run(room, "a.txt")
        diff = shown.split(b"a.txt:1: log-level info\n", 1)[1].split(b"\n\n", 1)[0] + b"\n"
        cut = diff.rfind(b"\n", 0, 4_096) + 1
        _, output, _ = run(room, "--format", "github", "a.txt")
        _, _, message = workflow_command(output.splitlines()[0])
        if message != diff[:cut] + b".. %d more bytes\n(- expected, + output)" % (len(diff) - cut):
            yield f"{name}: {message!r}, of {len(diff)} bytes"


def test_accepting_for_programs(room: pathlib.Path) -> Iterator[str]:
    files(room, a_txt=BAD + b"\ncampain 1\n----\n", b_txt=BAD + b"log-level none\n")
    status, output, told = run(room, "--accept", "--format", "json", ".")
    *objects, last = map(json.loads, output.splitlines())
    came = [(it["script"], it["line"], it["status"], it.get("message")) for it in objects]
    if [last[name] for name in ("status", "scripts", "directives", "mismatches", "errors", "warnings", "accepted", "failed")] != ["totals", 2, 3, 2, 1, 1, 1, 0]:
        yield f"{last}"
    wanted = [
        ("./a.txt", 1, "mismatch", None), ("./a.txt", 5, "mismatch", None),
        ("./a.txt", 5, "left", "this new error was not accepted; --accept-errors accepts it too"),
        ("./a.txt", None, "accepted", "accepted 1 output"),
        ("./b.txt", 4, "warning", "this looks like a directive inside an expectation: an empty line is missing before it"),
        ("./b.txt", 1, "mismatch", None),
        ("./b.txt", None, "left", "nothing was accepted, since it has warnings; --force accepts all the same"),
    ]
    if (status, told) != (1, b"") or came != wanted:
        yield f"{status} {told!r} {came}"


def test_format_that_there_is_not(room: pathlib.Path) -> Iterator[str]:
    yield from differs("it", run(room, "--format", "xml", "."), (2, b"", b"raftbench: --format xml: text, json, github or junit\n"))


def junit_cases(output: bytes) -> list[tuple[str, str, str, str]]:
    """Of each case its name, what is in it, and the message and the text of that, as a parser of XML reads them."""
    root = ElementTree.fromstring(output)
    assert root.tag == "testsuites", root.tag
    came = []
    for suite in root:
        (case,) = suite
        assert (suite.tag, case.tag, suite.get("name")) == ("testsuite", "testcase", case.get("name")) and case.get("classname") == "raftbench"
        assert case.get("file") == case.get("name", "").removeprefix("./"), case.attrib
        kinds = [part.tag for part in case]
        assert [suite.get(name) for name in ("tests", "failures", "errors")] == ["1", str(kinds.count("failure")), str(kinds.count("error"))], suite.attrib
        part = case[0] if kinds else ElementTree.Element("")
        came.append((case.get("name", ""), part.tag, part.get("message", ""), part.text or ""))
    return came


def by_number(text: bytes) -> str:
    """All that isn't printable ASCII, a tab or an end of a line by its number, and backslashes too."""
    return "".join(chr(byte) if byte in b"\t\n" or 32 <= byte <= 126 and byte != 92 else f"\\x{byte:02x}" for byte in text)


def test_junit(room: pathlib.Path) -> Iterator[str]:
    """A case has what the text report shows of its script; it fails where that script alone ends with 1."""
    odd_files(room)
    status, output, told = run(room, "--format", "junit", *ODD_PATHS)
    if (status, told) != (4, b"nothing: no such file or folder\n"):
        yield f"{status} {told!r}"
    cases = junit_cases(output)
    if [(name, kind) for name, kind, _, _ in cases] != [("nothing", "error"), ("a.txt", "failure"), ("b/c.txt", "system-out"), ("d.txt", ""), ("e.txt", "error"), ("f.txt", "failure")]:
        yield f"{cases}"
    if [message for _, kind, message, _ in cases if kind == "failure"] != ["mismatches: 2, errors: 1, warnings: 0", "mismatches: 1, errors: 0, warnings: 1"]:
        yield f"{cases}"
    for name, kind, _, text in cases:
        alone, shown, _ = run(room, name)
        shown = b"".join(shown.splitlines(keepends=True)[:-1])
        # Where the script would act in a terminal, the text report has numbers already.
        if kind in ("failure", "system-out", "") and (text not in (by_number(shown), shown.decode()) or (kind == "failure") != (alone == 1)):
            yield f"{name}: {text!r}, and not {shown!r}"


def test_junit_is_xml(room: pathlib.Path) -> Iterator[str]:
    """Whatever bytes scripts and their names have."""
    dice = random.Random(1)
    signs = [b"]]>", b"<!--", b"-->", b"</failure>", b"&", b"&#0;", b"<![CDATA[", b"<?", b"?>", b"\"", b"'", b"\x00", b"\x1b", b"\x7f", b"\xff\xfe", b"\xc3", b"\xef\xbf\xbe", b"\r", b"\t", b"\\", "\ufffe\u202e\u0085".encode()]
    signs += [bytes([byte]) for byte in range(256) if byte != 10]
    for round_ in range(60):
        lines = [b"x" + b"".join(dice.choices(signs, k=dice.randint(1, 12))) for _ in range(4)]
        name = "a<&\"'>]]\t\u00e9.txt" if round_ % 2 else "a.txt"
        (room / name).write_bytes(b"log-level info\n----\n----\n" + b"\n".join(lines) + b"\n----\n----\n\ncampaign 1 " + lines[0].replace(b"(", b"") + b"\n----\nok\n")
        status, output, _ = run(room, "--format", "junit", name)
        if status not in (1, 3) or any(byte not in (9, 10) and not 32 <= byte <= 126 for byte in output):
            yield f"{status} {output!r}"
        ((shown, kind, message, text),) = junit_cases(output)
        if shown != by_number(name.encode()) or kind not in ("failure", "error"):
            yield f"{shown!r} {kind} {message}"
        for line in lines if kind == "failure" else []:
            if by_number(line.rstrip(b"\r")) not in text:
                yield f"{line!r} is not in {text!r}"


def test_strict_is_of_each_script(room: pathlib.Path) -> Iterator[str]:
    """In each format, and whatever is shown."""
    files(room, a_txt=GOOD, b_txt=b"campain 1\n----\n" + UNKNOWN + b"\n", c_txt=b"log-level info\nx\n----\nok\n")
    for words in ((), ("-q",), ("-v",), ("--brief",), ("--first",), ("--why",), ("--format=json",), ("--format=github",), ("--format=junit",)):
        for paths, due in ((("a.txt",), 0), (("b.txt",), 1), (("c.txt",), 1), ((".",), 1)):
            came = run(room, "--strict", *words, *paths)[0], run(room, *words, *paths)[0]
            if came != (due, 0):
                yield f"{words} {paths}: {came}"
    cases = junit_cases(run(room, "--strict", "--format=junit", ".")[1])
    if [kind for _, kind, _, _ in cases] != ["", "failure", "failure"]:
        yield f"{cases}"
    yield from differs("refused", run(room, "--strict", "-q", ".", "nothing"), (4, b"", None))


# What acts in a terminal or a log, and what is shown of it: control characters, DEL, a C1 control in UTF-8, marks that turn the direction, ends of
# lines of others, no UTF-8. A tab acts in nothing, and neither do other characters.
ACTING = {
    b"\x1b[2J\x1b]0;title\x07": b"\\x1b[2J\\x1b]0;title\\x07", b"a\x00b": b"a\\x00b", b"a\x7f": b"a\\x7f", b"a\rb.txt:1: forged": b"a\\x0db.txt:1: forged", b"\x08\x08": b"\\x08\\x08",
    "\x9b31m".encode(): b"\\xc2\\x9b31m", "\x85b".encode(): b"\\xc2\\x85b", "\u202eab\u2066".encode(): b"\\xe2\\x80\\xaeab\\xe2\\x81\\xa6", "\u2028b".encode(): b"\\xe2\\x80\\xa8b",
    b"\xff\xfe": b"\\xff\\xfe", b"\xc3": b"\\xc3", b"\xed\xa0\x80": b"\\xed\\xa0\\x80",
}
STILL = [b"a\tb", "é\u4e2d\U0001f600".encode(), b"a\\x1bb", b"100%"]


def test_what_acts_in_a_terminal(room: pathlib.Path) -> Iterator[str]:
    """It is shown by numbers, on each way out; else bytes are shown as they are."""
    for acting, seen in ACTING.items():
        files(room, a_txt=b"log-level info\n----\n" + acting + b"\n")
        wanted = b"a.txt:1: log-level info\n- " + seen + b"\n+ ok\n\n" + totals(1, 1, 1)
        for words in [(), ("--color=always",)]:
            yield from differs(f"{acting!r} {words}", run(room, *words, "a.txt"), (1, wanted, b""))
        status, output, _ = run(room, "--format", "github", "a.txt")
        if status != 1 or seen not in output.replace(b"%25", b"%").replace(b"%0D", b"\\x0d") or any(byte != 10 and not 32 <= byte <= 126 for byte in output):
            yield f"github {acting!r}: {output!r}"
        status, output, _ = run(room, "--format", "json", "a.txt")
        if status != 1 or json.loads(output.splitlines()[0])["expected"] != [acting.decode("latin-1")] or any(byte != 10 and not 32 <= byte <= 126 for byte in output):
            yield f"json {acting!r}: {output!r}"
    for still in STILL:
        files(room, a_txt=b"log-level info\n----\n" + still + b"\n")
        yield from differs(f"{still!r}", run(room, "a.txt"), (1, b"a.txt:1: log-level info\n- " + still + b"\n+ ok\n\n" + totals(1, 1, 1), b""))


def test_names_that_act_in_a_terminal(room: pathlib.Path) -> Iterator[str]:
    """The names of files too, and on standard error."""
    (room / "a\x1b[2J.txt").write_bytes(BAD)
    (room / "c.txt").write_bytes(BAD)
    status, output, told = run(room, ".", "no\x1bwhere")
    listed_wanted = b"./a\\x1b[2J.txt: 1 of 1 differ, first at line 1\n./c.txt: 1 of 1 differ, first at line 1\n\n"
    if status != 4 or b"./a\\x1b[2J.txt:1: log-level info\n" not in output or listed_wanted not in output or told != b"no\\x1bwhere: no such file or folder\n":
        yield f"{status} {output!r} {told!r}"
    # The parser of the command line reports one that begins like an option.
    status, output, told = run(room, "--a\x1b[2J.txt")
    if status != 2 or output or not told.startswith(b"error: unexpected argument '--a\\x1b[2J.txt' found\n") or b"\x1b" in told:
        yield f"as an option: {status} {output!r} {told!r}"
    # Only a word that acts has numbers.
    for word, line in ("--\u00e9", "'--\u00e9'"), ("--\u00e9\n\u00e9\x1b", "'--\\xc3\\xa9\\x0a\\xc3\\xa9\\x1b'"):
        status, output, told = run(room, word)
        if status != 2 or output or not told.startswith(f"error: unexpected argument {line} found\n".encode()):
            yield f"{word!r}: {status} {output!r} {told!r}"


# Names whose bytes end a line or aren't seen, and what is shown of them. The name of a script may be any.
UNSEEN_NAMES = {
    "x\n::stop-commands::forged": "x\\x0a::stop-commands::forged", "a\tb": "a\\x09b", "a\u200bb": "a\\xe2\\x80\\x8bb", "a\U000e0041b": "a\\xf3\\xa0\\x81\\x81b",
    "a\\x0ab": "a\\x0ab", "\u00e9": "\u00e9",
}


def test_names_stay_in_their_line(room: pathlib.Path) -> Iterator[str]:
    """In the text, on standard error, and in the element of XML that has the text."""
    for name, seen in UNSEEN_NAMES.items():
        files(room, a_txt=BAD)
        (room / "a.txt").rename(room / f"{name}.txt")
        wanted = mismatch(seen + ".txt") + totals(1, 1, 1)
        yield from differs(f"{name!r}", run(room, f"{name}.txt"), (1, wanted, b""))
        yield from differs(f"no {name!r}", run(room, f"no{name}.txt"), (4, b"", f"no{seen}.txt: no such file or folder\nraftbench: no script was found\n".encode()))
        for form in ("json", "github", "junit"):
            _, output, told = run(room, "--format", form, f"{name}.txt", f"no{name}.txt")
            if any(line.startswith(b"::stop-commands") for line in (output + b"\n" + told).splitlines()):
                yield f"{form} {name!r}: {output!r} {told!r}"
        (room / f"{name}.txt").unlink()
