"""The sources of the crates as a reader of contracts sees them: functions, clauses, types and definitions."""
