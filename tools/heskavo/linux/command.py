"""Compares this host with Linux: verdicts, results, and the contents of the rings.

Generates COUNT random scripts, each a sequence of programs over the same rings, with takes in between. Both hosts
verify and run them. Compares the verdict, the result (of which Linux reports 32 bits), the records byte for byte, their
headers, the positions, and whether the reader was woken. Prints the counts, each class of difference of docs/LINUX.md
with its frequency, and each difference that has no class, in which case the status is 1. Reports its progress on
standard error after every hundred scripts.

With --objects, which takes no COUNT, it compares the programs of examples/c. Linux runs each object file, loaded by
libbpf, and this host its hex, and the tape of a pinned map is compared with the records that libbpf's
ring_buffer__poll returns. Then it compares 20 random programs in C that clang lays out with backward jumps: Linux runs
them as they are, and this host as tools/bpf-hex lays them out.

Requires root, Linux 6.6 or newer, and gcc, and for --objects clang and Debian's libbpf-dev. If one of these is missing
or bpf(2) is refused, it prints a line that begins with `skipped`, compares nothing, and ends with status 0. tools/linux
has the host over Linux.
"""
import argparse

from heskavo.command_line import UsageError
from heskavo.linux import comparison, object_comparison
from heskavo.linux.heskavo_host import HeskavoHost
from heskavo.linux.linux_host import LinuxHost, Skipped


def add_arguments(parser: argparse.ArgumentParser) -> None:
    """Adds the option and the values."""
    parser.add_argument("--objects", action="store_true", help="compare the programs of examples/c, loaded by libbpf")
    parser.add_argument(
        "values",
        metavar="VALUE",
        nargs="*",
        help="COUNT (1000 by default, none with --objects), SEED (1) and PROGRAM, a built rbhost (tools/rbhost)",
    )


def run(asked: argparse.Namespace) -> int:
    """Compares the hosts, or says why it cannot."""
    most = 1 if asked.objects else 2
    if len(asked.values) > most + 1 or not all(value.isdigit() for value in asked.values[:most]):
        raise UsageError("COUNT and SEED are numbers, and PROGRAM is the last value")
    numbers, heskavo = list(map(int, asked.values[:most])), HeskavoHost(*asked.values[most:])
    try:
        linux = LinuxHost()
        if asked.objects:
            return object_comparison.compare(heskavo, *[*numbers, *[1][len(numbers) :]])
        return comparison.compare(linux, heskavo, *[*numbers, *[1000, 1][len(numbers) :]])
    except Skipped as skipped:
        print(f"skipped: {skipped}")
        return 0
