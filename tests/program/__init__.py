"""The program as it was proved and built: what it prints, how it ends, and what it may do when input, output or memory fail."""
