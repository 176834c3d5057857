"""Tests of everything that no proof shows. README.md says which to run after which change; run is the runner."""

