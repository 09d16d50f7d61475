"""Drives a real SMB server with the proved client machines, and has the record judged (docs/REAL_SERVERS.md)."""
