"""What tests the built program, the library, and the tools around them (docs/TESTING.md)."""
