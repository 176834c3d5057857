"""A script for each rule of docs/NODE.md, and nodes with wrong rules."""

