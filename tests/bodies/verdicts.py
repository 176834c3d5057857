"""What a check has said of a function: whether it is refused, and by what."""
import dataclasses
import enum
import re


class Kind(enum.Enum):
    """What becomes of an edit. Only one that is refused has passed."""

    REFUSED = "refused by a goal of its own"
    NOT_MADE = "it can't be made"
    NOT_COMPILED = "it doesn't compile"
    PROVED = "its function is proved with it"
    BY_CALLEE = "its function is refused only since it calls one that is"
    BY_NAMES = "it is refused only since a proof file names what the edit took away"
    NOT_TOLD = "the check doesn't tell"


@dataclasses.dataclass(frozen=True)
class Verdict:
    """What becomes of an edit, and the line that shows it."""

    kind: Kind
    line: str = ""


# A proof file that names what the edit took away, and what cites that proof.
NAMES = re.compile(r"has no field|is not in scope|has no `|was not admitted")
# What says that a text of src/ or specs/ can't be read: an error of no declaration, or of what it names.
UNREAD = re.compile(r"is not in scope|has no field|is no name|operand is missing|expected the end|cannot continue")
# A file of lemmas, of the crate or of one below that is read as source; no proof of one function.
LEMMA = re.compile(r"(?:\.\./\w+/)?proofs/(?!(?:.*/)?(?:Answers|Invariants|Proof)\.antt$)")
PLACE = re.compile(r"(?:note: )?(?:\./)?(?P<file>\S+?):\d+:\d+: (?P<text>.*)")


def has_ended(said: str) -> bool:
    """Whether the check has come to functions, and to its end."""
    return bool(re.search(r"^only=\d+ proved=\d+\n?\Z", said, re.M))


def why_not_compiled(said: str) -> str:
    """The first line that tells why a check broke off."""
    lines = said.splitlines()
    return next((line for line in lines if re.search(r"\berror\b", line)), lines[-1] if lines else "nothing was said")


def unread(said: str, changed: set[str]) -> str:
    """The line that tells that a clause, a definition or an edited file can't be read, if there is one."""
    for line in said.splitlines():
        found = re.match(r"(?:\./)?(\S+?):\d+:\d+: error: (?:(`[^`]*`): )?(.*)", line)
        if not found or found[1] not in changed and not found[1].startswith(("src/", "specs/")):
            continue
        if not found[2] or UNREAD.search(re.sub(r"`[^`]*`", "", found[3])):
            return line
    return ""


def goals_of(said: str, crate: str, function: str) -> list[str]:
    """The lines that show a goal of the function's own that isn't proved, those of lemmas that no function owns among them, of crates below too."""
    own: list[str] = []
    notes: list[str] = []
    *modules, name = function.split("::")
    # The folder of a function that calls itself begins with a `+`.
    folders = tuple("/".join(["proofs", *modules, it, ""]) for it in (name, f"+{name}"))
    for line in said.splitlines():
        if line.startswith("fn "):
            if line.startswith(f"fn {crate}::{function}: "):
                own += notes + re.findall(r"`search` did not prove .*", line)
            notes = []
            continue
        found = PLACE.match(line)
        if not found:
            continue
        if line.startswith("note: "):
            notes.append(line)
        elif "error" in found["text"] and not NAMES.search(found["text"]):
            file = found["file"]
            if file.startswith(folders) or LEMMA.match(file):
                own.append(line)
    return own


def verdict_on(said: str, crate: str, function: str) -> Verdict:
    """What a check that has ended says of a function of which it was asked."""
    line = next((it for it in said.splitlines() if it.startswith(f"fn {crate}::{function}: ")), "")
    told = line.partition(": ")[2]
    if told == "proved":
        return Verdict(Kind.PROVED, line)
    if not told.startswith(("not proved", "no proof")):
        return Verdict(Kind.NOT_TOLD, line or f"no line of {function}")
    own = goals_of(said, crate, function)
    if own:
        return Verdict(Kind.REFUSED, own[0])
    return Verdict(Kind.BY_CALLEE if "it calls" in told else Kind.BY_NAMES, line)

