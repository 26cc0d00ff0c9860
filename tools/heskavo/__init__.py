"""The tools of the repository. Each command in `tools/` starts a module of this package."""
