"""Measures, and faults that are made on purpose; nothing here is part of `./test`."""
