"""Tools for other people's Rafts: run behind a protocol, checked against Raft's promises, and compared with a reference."""
