"""Everything around the program that can fail, made to fail on purpose; ``python3 -m bench.faults`` runs all of it and prints a table.

A part of it stands in tests/faults, which ``./test`` runs.
"""
