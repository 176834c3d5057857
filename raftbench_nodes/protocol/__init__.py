"""The protocol of docs/OWN-NODES.md: its values in JSON, the answers of nodes, what nodes may lack, and an adapter for the reference."""
