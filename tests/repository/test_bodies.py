"""Looks for functions of two crates with the same body, of two lines or more. What two crates need is a public function of one of them.

STANDING lists the doubles that there still are, by crate and function. It only shrinks.
"""
import re
from collections import defaultdict
from collections.abc import Iterator, Mapping

from tests.repository.test_sources import sources

# A function's head. Its body is the first brace at the end of a line, or on a line of its own, after the head and its clauses.
HEAD = re.compile(r"^(?P<indent> *)(?:pub(?:\(crate\))? )?(?:const )?fn (?P<name>\w+)", re.MULTILINE)
FEWEST_LINES = 2

STANDING: frozenset[frozenset[str]] = frozenset()


def functions(text: str) -> Iterator[tuple[str, str]]:
    """The name and the body of each function of a source, as rt fmt lays it out: the body ends with a brace as far in as the head."""
    for head in HEAD.finditer(text):
        indent = head["indent"]
        rest = text[head.end():]
        end = re.search(rf"^{indent}\}}$", rest, re.MULTILINE)
        begin = re.search(rf"(?:^{indent}|.* )\{{$\n", rest, re.MULTILINE)
        if begin and end and begin.end() <= end.start():
            yield head["name"], rest[begin.end():end.start()]


def code_lines(body: str) -> tuple[str, ...]:
    """The lines of a body, without comments and without their indentation."""
    lines = (line.strip() for line in body.splitlines())
    return tuple(line for line in lines if line and not line.startswith("//"))


def doubles(texts: Mapping[str, str]) -> frozenset[frozenset[str]]:
    """The functions that have the same body in two crates, by crate and name."""
    places: dict[tuple[str, ...], set[str]] = defaultdict(set)
    for path, text in texts.items():
        for name, body in functions(text):
            lines = code_lines(body)
            if len(lines) >= FEWEST_LINES:
                places[lines].add(f"{path.split('/')[0]}::{name}")
    return frozenset(frozenset(names) for names in places.values() if len({name.split("::")[0] for name in names}) > 1)


def test_no_function_stands_twice() -> Iterator[str]:
    for names in sorted(sorted(it) for it in doubles(sources()) - STANDING):
        yield f"the same body: {', '.join(names)}"


def test_list_shrinks() -> Iterator[str]:
    for names in sorted(sorted(it) for it in STANDING - doubles(sources())):
        yield f"no double any more: {', '.join(names)}"


def test_a_double_is_seen() -> Iterator[str]:
    body = "fn double(n: u64) -> u64\n    ensures { result ≡ n }\n{\n    let m = n;\n    m\n}\n"
    if doubles({"rb_a/src/one.rt": body, "rb_b/src/two.rt": body.replace("double", "again")}) != {frozenset({"rb_a::double", "rb_b::again"})}:
        yield "a double isn't seen"
    if doubles({"rb_a/src/one.rt": body, "rb_a/src/two.rt": body}):
        yield "two functions of one crate count as doubles"
