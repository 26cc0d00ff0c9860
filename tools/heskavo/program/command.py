"""Prints the path of a program of this repository, or of its library for C, and builds it first if it does not exist.

It is the proved program (crates/NAME/out/NAME) if `rt run` or the gate has built one, and otherwise one that is built
here without proof: `rt try` makes LLVM bitcode of the whole program, which the kit's clang compiles with optimization.
The checks that `rt try` inserts into the code remain: an overflowing sum, an index out of range and a failed `unwrap`
end the program. The build takes two to three minutes on two processors, and is kept in crates/NAME/out/unproved. It is
repeated only if the contents of a source have changed.

Progress and warnings go to standard error. The status is 127 if no Rattle kit is on the path, and 126 if the build
fails.
"""
import argparse
import signal
import sys

from heskavo.command_line import UsageError, main
from heskavo.program import builds


def add_arguments(parser: argparse.ArgumentParser) -> None:
    """Adds the name and what is asked of the program."""
    kind = parser.add_mutually_exclusive_group()
    kind.add_argument(
        "--path", action="store_true", help="print the path, and build the program if necessary (the default)"
    )
    kind.add_argument(
        "--which", action="store_true", help="print which program there is and how it was built, and build nothing"
    )
    kind.add_argument(
        "--sanitized",
        action="store_true",
        help="rbhost without optimization and with AddressSanitizer, kept in crates/rbhost/out/sanitized",
    )
    parser.add_argument("--unproved", action="store_true", help="the one without proof, even if there is a proved one")
    parser.add_argument(
        "name",
        choices=builds.NAMES,
        nargs="?",
        default="rbhost",
        metavar="NAME",
        help="rbhost (the default), rb_trials, or heskavo_c for the library",
    )


def run(asked: argparse.Namespace) -> int:
    """Prints the requested path."""
    if asked.sanitized and asked.name != "rbhost":
        raise UsageError("--sanitized is for rbhost")
    if asked.which:
        builds.describe(asked.name)
    elif asked.unproved or asked.sanitized:
        print(builds.unproved(asked.name, asked.sanitized))
    else:
        print(builds.find(asked.name))
    return 0


def start() -> None:
    """Runs the command as a part of tools/rbhost. A signal to end it removes the temporary files."""
    for number in (signal.SIGINT, signal.SIGTERM, signal.SIGHUP):
        signal.signal(number, lambda it, _: sys.exit(128 + it))
    sys.exit(main("rbhost", sys.modules[__name__]))
