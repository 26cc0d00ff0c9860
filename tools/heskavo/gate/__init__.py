"""The checks before a commit and before a push."""
