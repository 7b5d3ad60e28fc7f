"""What the tools for users share: the tables of docs/FORMATS.md, and the entries of traces."""
