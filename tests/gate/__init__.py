"""What the gate has to do, which takes its time: wrong versions that are to be refused, and crates."""
