"""Wrong bodies of the crates, one file each crate, that contracts must refuse: here that each can still be made, in seconds.
Run it after a change of any crate; `tests/bodies/judge.py CRATE` tries a crate's, once it is proved, and `./test` all that are marked.
"""

