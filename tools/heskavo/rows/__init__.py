"""Plain models of rings and programs, written independently of the crates, and their comparison with rows."""
