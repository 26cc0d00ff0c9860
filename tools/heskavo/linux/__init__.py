"""Scripts and programs run by this host and by Linux."""
