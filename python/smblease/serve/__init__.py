"""Files over the proved manager of leases: a server of SMB 2.1 (docs/SERVE.md)."""
