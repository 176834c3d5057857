"""./raftbench, ./install and ./release, in small copies of the repository where programs only pretend, and in a root with nothing else.
Run it after a change of these three, of share/ or of what editors/ has installed.
"""

RUNS = ("raftbench",)
