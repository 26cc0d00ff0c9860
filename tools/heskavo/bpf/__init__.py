"""eBPF programs from C sources and object files, as hex. An installation has a copy of this package alone."""
