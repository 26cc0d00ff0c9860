"""The style of all command lines: `argparse`, with the documentation of a command's module as its help."""
import argparse
import os
import signal
import sys
from collections.abc import Mapping
from typing import Any, Protocol


class Command(Protocol):
    """A module that is a command: its documentation is the help, and says what the status means."""

    def add_arguments(self, parser: argparse.ArgumentParser) -> None:
        """Adds the arguments and options of the command."""

    def run(self, asked: argparse.Namespace) -> int:
        """Runs the command, and returns its status."""


class UsageError(Exception):
    """Arguments that do not fit together. The command ends with this message and status 2."""


class Failure(Exception):
    """What prevents a command from doing its work. The command ends with this message on standard error and this status."""

    def __init__(self, status: int, message: str) -> None:
        super().__init__(message)
        self.status = status


def help_of(command: Command) -> dict[str, Any]:
    """Returns how a parser shows a command's documentation."""
    return {"description": command.__doc__, "formatter_class": argparse.RawDescriptionHelpFormatter}


def main(name: str, command: Command) -> int:
    """Runs a command of tools/, or of another folder, with the arguments of the process, and returns its status."""
    name = name if "/" in name else f"tools/{name}"
    parser = argparse.ArgumentParser(prog=name, **help_of(command))
    command.add_arguments(parser)
    asked = parser.parse_args()
    try:
        return command.run(asked)
    except UsageError as error:
        parser.error(str(error))
    except Failure as failure:
        print(f"{name}: {failure}", file=sys.stderr)
        return failure.status
    except BrokenPipeError:
        # The reader of the output has ended; nothing more can be printed, not even at the end of the process.
        os.dup2(os.open(os.devnull, os.O_WRONLY), sys.stdout.fileno())
        return 128 + signal.SIGPIPE
    except KeyboardInterrupt:
        print(f"{name}: interrupted", file=sys.stderr)
        return 128 + signal.SIGINT


def add_subcommands(parser: argparse.ArgumentParser, commands: Mapping[str, Command], required: bool) -> None:
    """Adds commands as subcommands; `asked.subcommand` is the module of the chosen one."""
    places = parser.add_subparsers(metavar="COMMAND", required=required)
    for name, command in commands.items():
        first = (command.__doc__ or "").strip().split("\n\n")[0].replace("\n", " ")
        place = places.add_parser(name, help=first, **help_of(command))
        place.set_defaults(subcommand=command)
        command.add_arguments(place)
