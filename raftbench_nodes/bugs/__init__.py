"""Planted bugs: nodes with one rule broken. How soon the tools find them is measured. `registry.BUGS` has all of them, since the package imports
their modules.
"""
from . import crashes, rules

__all__ = ["crashes", "rules"]
