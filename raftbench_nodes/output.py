"""Standard output whose failures are told apart from those of other files."""
from __future__ import annotations

import io
import os
import sys
from typing import Any


class OutputError(Exception):
    """Standard output can't be written; the text says why."""


class StandardOutput(io.FileIO):
    """Standard output without a buffer. A closed pipe stays a BrokenPipeError."""

    def __init__(self) -> None:
        super().__init__(1, "wb", closefd=False)

    def write(self, data: Any) -> int:
        try:
            return super().write(data)
        except BrokenPipeError:
            raise
        except OSError as fault:
            raise OutputError(fault.strerror) from None


def checked_output() -> io.TextIOWrapper:
    """Standard output as Python opens it, over a StandardOutput."""
    assert isinstance(sys.stdout, io.TextIOWrapper)
    return io.TextIOWrapper(io.BufferedWriter(StandardOutput()), sys.stdout.encoding, sys.stdout.errors, line_buffering=sys.stdout.line_buffering)


def discard_output() -> None:
    """What is left to be written goes nowhere."""
    null = os.open(os.devnull, os.O_WRONLY)
    os.dup2(null, 1)
    os.close(null)
