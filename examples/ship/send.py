#!/usr/bin/python3
"""Sends the records of a host's tape, the objects that `rbhost tape --json` prints, to the stream `tape:HOST:RUN`.

Usage: rbhost tape --json --size N < TAPE | examples/ship/send.py HOST RUN PORT

RUN names the run of the host that made the tape, for example by the time at which it began: positions start again with
each run, so each run has its own stream. A record's position is its number in the stream, and the server accepts no
number twice. So a sender that was killed sends the same tape again, from the start: records that the stream has are
compared, and missing ones are sent. A tape that differs from what was sent is an error, and nothing is sent from the
difference on. The sender waits 30 seconds for a server that goes away (5 at the start). An error is one line, with
status 1.
"""
import argparse
import itertools
import sys
from collections.abc import Iterable, Iterator

from stream import AWAY, Failure, Record, ServerError, Stream, record_of

AT_ONCE = 64


def records_of(lines: Iterable[bytes]) -> Iterator[Record]:
    """Yields the records of lines, whose positions must increase."""
    last = -1
    for number, line in enumerate(lines, 1):
        record = record_of(line.decode(errors="replace").rstrip("\n"), number)
        if record.position <= last:
            raise Failure(f"line {number} has the position {record.position}, and the line before {last}: is this one tape?")
        last = record.position
        yield record


def compare(stream: Stream, sent: list[Record]) -> None:
    """Compares records with those at the same positions in the stream; those that the server trimmed are skipped."""
    there = {record.position: record.line for record in stream.between(sent[0].position, sent[-1].position)}
    oldest = stream.first_position()
    ours = {record.position: record.line for record in sent if record.position >= oldest}
    for position in sorted(set(there) | set(ours)):
        if there.get(position) != ours.get(position):
            raise Failure(f"{stream.name} has different contents at position {position}: this is the tape of another run, and needs another RUN")


def append(stream: Stream, records: list[Record]) -> None:
    """Appends all of these records or, if the server goes away, none. In one transaction, since a server that starts refuses commands until it is ready."""
    pipeline = stream.server.pipeline(transaction=True)
    for record in records:
        pipeline.xadd(stream.name, {"record": record.line}, id=f"1-{record.position}")
    pipeline.execute()


def send(stream: Stream, records: Iterator[Record]) -> None:
    """Sends records that the stream does not have, and compares the others. After a failure it asks the stream for its last record."""
    last = stream.last_position()
    while batch := list(itertools.islice(records, AT_ONCE)):
        while batch:
            old = [record for record in batch if record.position <= last]
            if old:
                compare(stream, old)
            batch = batch[len(old):]
            try:
                if batch:
                    append(stream, batch)
                    last = batch[-1].position
                    batch = []
            except AWAY:
                last = stream.last_position()


def main() -> None:
    """Sends standard input."""
    words = argparse.ArgumentParser(description=__doc__, formatter_class=argparse.RawDescriptionHelpFormatter, usage="send.py HOST RUN PORT")
    words.add_argument("host", metavar="HOST")
    words.add_argument("run", metavar="RUN")
    words.add_argument("port", type=int, metavar="PORT")
    asked = words.parse_args()
    try:
        stream = Stream(asked.host, asked.run, asked.port)
        send(stream, records_of(sys.stdin.buffer))
    except Failure as failure:
        sys.exit(f"send.py: {failure}")
    except ServerError as error:
        sys.exit(f"send.py: the server refuses records for tape:{asked.host}:{asked.run}: {error}")


if __name__ == "__main__":
    main()
