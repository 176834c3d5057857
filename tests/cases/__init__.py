"""Cases of the whole program, each one text (case.py says how it is written); in rules a script for each rule of docs/NODE.md.
Run it after any change of what the program reads, does or prints; `tests/run --accept cases WORD` writes what comes into cases.
"""

RUNS = ("raftbench", "rb_plain")
