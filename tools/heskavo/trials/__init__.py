"""Long trials of the built programs, which the gate does not run."""
