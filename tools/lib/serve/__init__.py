"""The service for several desks: a journal of lines in front of one `topo replay` (docs/working-together.md)."""
