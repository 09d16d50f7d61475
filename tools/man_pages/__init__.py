"""What tools/manual makes man pages of: help texts, parsers of command lines, headers and docs/C.md."""
