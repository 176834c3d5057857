#!/usr/bin/env python3
"""Shows one seed: what it makes, and what differs.

    tests/plain/seed.py script|long|session SEED
"""
import pathlib
import sys

sys.dont_write_bytecode = True
sys.path[:1] = [str(pathlib.Path(__file__).resolve().parents[2])]

from tests.plain import test_plain  # noqa: E402


def main() -> None:
    kind, seed = sys.argv[1], int(sys.argv[2])
    look = {"script": test_plain.script, "long": test_plain.long, "session": test_plain.session}[kind]
    if kind == "session":
        text, every, sent, *_ = test_plain.talk_of(seed)
        made = text + b"\n==== --every %d\n" % every + sent
    else:
        made = (test_plain.script_of if kind == "script" else test_plain.long_script_of)(seed)
    sys.stdout.buffer.write(made)
    sys.stdout.flush()
    print(look(seed).problem)


if __name__ == "__main__":
    main()
