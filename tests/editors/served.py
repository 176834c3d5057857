"""The text that a server serves: a script, or what is above the block with the first fault of a text that isn't one."""
from plain import script


def served(text: str) -> str:
    """A script, or the longest script of whole lines above the line that the fault names; nothing if it names none. Texts are Python's."""
    try:
        script.read_script(text.encode())
    except script.Fault as fault:
        lines = text.split("\n")
        for count in reversed(range(fault.args[1] if len(fault.args) > 1 else 1)):
            above = "".join(line + "\n" for line in lines[:count])
            if is_script(above):
                return above
    return text


def is_script(text: str) -> bool:
    try:
        script.read_script(text.encode())
    except script.Fault:
        return False
    return True
