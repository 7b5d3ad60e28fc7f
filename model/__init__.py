"""A second reading of docs/FORMATS.md and docs/PROTOCOL.md in plain Python, written without the program."""
