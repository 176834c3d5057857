"""`raftbench-live`: the page that one plays with. Its server, without a browser; and playing by mouse and by keys in a headless one.
Run it after a change of live/, of the page's modules or of the program's `page`, `session` and `check --accept`.
"""
RUNS = ("raftbench",)
