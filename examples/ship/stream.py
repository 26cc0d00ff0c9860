"""Shared by sender and reader: the server's stream of one run of one host, and its records."""
import json
import sys
import time
import typing
from collections.abc import Callable

try:
    import redis
except ImportError:
    sys.exit(f"{sys.argv[0]}: {sys.executable} has no module redis; it is in Debian's package python3-redis, for /usr/bin/python3")

# Exceptions of the client: the server is away or not ready yet, the server refuses a command, and any of these.
AWAY = (redis.ConnectionError, redis.TimeoutError, redis.BusyLoadingError)
CommandRefused, ServerError = redis.ResponseError, redis.RedisError
# How many seconds to wait for a server at the start, and after it went away.
BEGIN, PATIENCE = 5, 30

Result = typing.TypeVar("Result")


class Failure(Exception):
    """An error that ends a sender or a reader, in one line."""


class Record(typing.NamedTuple):
    """A record of a tape: its position in the ring, and its line of `rbhost tape --json`."""

    position: int
    line: str


def record_of(line: str, number: int) -> Record:
    """Returns the record of a line. Its position is an object's `pos`, which is a string above 2^53."""
    try:
        position = int(json.loads(line)["pos"])
    except (ValueError, KeyError, TypeError):
        raise Failure(f"line {number} is not a record of `rbhost tape --json`: {line[:60]!r}") from None
    return Record(position, line)


class Stream:
    """A stream: `tape:HOST:RUN`, in which a record has the number `1-POSITION`. A server accepts only increasing numbers."""

    def __init__(self, host: str, run: str, port: int) -> None:
        self.name, self.port = f"tape:{host}:{run}", port
        self.server = redis.Redis(host="127.0.0.1", port=port, decode_responses=True, socket_timeout=10)
        try:
            self.patiently(self.server.ping, BEGIN)
        except redis.AuthenticationError as error:
            raise Failure(f"the Redis server at port {port} of 127.0.0.1 requires a password: {error}") from None
        except redis.RedisError as error:
            raise Failure(f"what answers at port {port} of 127.0.0.1 is not a Redis server: {error}") from None

    def patiently(self, call: Callable[[], Result], seconds: int = PATIENCE) -> Result:
        """Returns the result of a call of the server. While the server is away, repeats the call for this many seconds; while it loads its data, for
        `PATIENCE` seconds."""
        began = time.monotonic()
        while True:
            try:
                return call()
            except redis.AuthenticationError:
                raise
            except AWAY as error:
                limit = PATIENCE if isinstance(error, redis.BusyLoadingError) else seconds
                if time.monotonic() > began + limit:
                    raise Failure(f"no Redis server answers at port {self.port} of 127.0.0.1, for {limit} seconds: {error}") from None
                time.sleep(0.05)

    def between(self, first: int, last: int) -> list[Record]:
        """Returns the records that the server has from one position to another."""
        entries = self.patiently(lambda: self.server.xrange(self.name, f"1-{first}", f"1-{last}"))
        return [Record(int(number.split("-")[1]), fields["record"]) for number, fields in entries]

    def first_position(self) -> int:
        """Returns the position of the oldest record that the server still has, or 0: streams can be trimmed."""
        entries = self.patiently(lambda: self.server.xrange(self.name, count=1))
        return int(entries[0][0].split("-")[1]) if entries else 0

    def last_position(self) -> int:
        """Returns the position of the stream's last record, or -1 if it has none."""
        entries = self.patiently(lambda: self.server.xrevrange(self.name, count=1))
        return int(entries[0][0].split("-")[1]) if entries else -1
