"""How the cost of `leasecheck judge`, `judge --explain`, `draw`, `replay`, `client` and `server` grows with their input."""
