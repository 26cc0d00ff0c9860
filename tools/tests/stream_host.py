"""A host over `rbhost stream`: programs for it, its counters, and the tapes and segments that it writes."""
import pathlib
import re
import struct
import subprocess

SECONDS = 120
END, FLUSH = 0xFFFFFFFF, 0xFFFFFFFE
SEGMENT = re.compile(r"(.+)\.(\d{20})\.tape")


def output_program(ring: int, length: int, above: int | None = None) -> str:
    """Returns the hex of a program that outputs its whole context to a ring; with `above`, only contexts whose first byte is greater than that.

    Its result is 0 for a record that was sent, and 1 for a context that it passed over.
    """
    units = []
    if above is not None:
        # r2 = *(u8 *)(r1 + 0); if r2 > above goto +2; r0 = 1; exit
        units += [
            "7112000000000000",
            f"25020200{struct.pack('<i', above).hex()}",
            "b700000001000000",
            "9500000000000000",
        ]
    units += [
        "bf12000000000000",
        f"18510000{struct.pack('<i', ring).hex()}",
        "0000000000000000",
        f"b7030000{struct.pack('<i', length).hex()}",
        "b704000000000000",
        "8500000082000000",
        "9500000000000000",
    ]
    return " ".join(units)


def discard_program(ring: int, length: int) -> str:
    """Returns the hex of a program that reserves a record in a ring and discards it."""
    # r1 = ring; r2 = length; r3 = 0; reserve; if r0 == 0 goto +3; r1 = r0; r2 = 0; discard; r0 = 0; exit
    return " ".join(
        [
            f"18510000{struct.pack('<i', ring).hex()}",
            "0000000000000000",
            f"b7020000{struct.pack('<i', length).hex()}",
            "b703000000000000",
            "8500000083000000",
            "1500030000000000",
            "bf01000000000000",
            "b702000000000000",
            "8500000085000000",
            "b700000000000000",
            "9500000000000000",
        ]
    )


def frame(context: bytes) -> bytes:
    """Returns a context as a frame."""
    return struct.pack("<I", len(context)) + context


def records(tape: bytes) -> list[bytes]:
    """Returns the payloads of a tape's submitted records."""
    found, at = [], 0
    while at < len(tape):
        (length,) = struct.unpack_from("<I", tape, at)
        size = length & 0x3FFFFFFF
        if not length >> 30:
            found.append(tape[at + 8 : at + 8 + size])
        at += 8 + (size + 7) // 8 * 8
    return found


class Counters:
    """The counters that `stream` prints at its end."""

    def __init__(self, text: str) -> None:
        self.text = text
        found = re.search(r"^contexts read (\d+) run (\d+) dropped (\d+) skipped (\d+) cut (\d+)$", text, re.M)
        self.read, self.run, self.dropped, self.skipped, self.cut = map(int, found.groups()) if found else (-1,) * 5

    def ring(self, name: str) -> dict[str, int]:
        """Returns the counts of a ring."""
        found = re.search(rf"^ring {name} (.*)$", self.text, re.M)
        words = found[1].split() if found else []
        return {word: int(count) for word, count in zip(words[::2], words[1::2])}


class Host:
    """A folder with programs, and a way to run the service over them."""

    def __init__(self, program: str, folder: pathlib.Path) -> None:
        self.program, self.folder = program, folder

    def file(self, name: str, text: str) -> str:
        """Writes a file and returns its path."""
        (self.folder / name).write_text(text)
        return str(self.folder / name)

    def words(self, *options: str) -> list[str]:
        """Returns the words of a command; an option may have several, with spaces between them."""
        return [self.program, "stream", *(word for option in options for word in option.split())]

    def run(self, given: bytes, *options: str) -> tuple[int, bytes, Counters]:
        """Runs the service over an input; returns its status, what it prints, and its counters."""
        ended = subprocess.run(self.words(*options), input=given, capture_output=True, timeout=SECONDS, check=False)
        return ended.returncode, ended.stdout, Counters(ended.stderr.decode())


def assert_same(**pairs: tuple[object, object]) -> None:
    """Asserts that the parts of each pair are the same: what was found, and what is expected."""
    for name, (found, wanted) in pairs.items():
        assert found == wanted, name


def segments(folder: pathlib.Path, ring: str) -> list[tuple[int, bytes]]:
    """Returns the segments of a ring, each with its position."""
    found = (SEGMENT.fullmatch(path.name) for path in sorted(folder.iterdir()))
    return [(int(name[2]), (folder / name[0]).read_bytes()) for name in found if name and name[1] == ring]


def assert_no_gaps(found: list[tuple[int, bytes]]) -> None:
    """Asserts that each segment begins where the one before it ends."""
    for (here, tape), (after, _) in zip(found, found[1:]):
        assert here + len(tape) == after


def printed(host: Host, size: int, found: list[tuple[int, bytes]]) -> str:
    """Returns what `tape` prints of segments, each by itself."""
    lines = []
    for position, tape in found:
        ended = subprocess.run(
            [host.program, "tape", "--size", str(size), "--start", str(position)],
            input=tape,
            capture_output=True,
            timeout=SECONDS,
            check=False,
        )
        lines.append(ended.stdout.decode() if ended.returncode == 0 else f"segment {position}: {ended.stderr.decode()}")
    return "".join(lines)
