"""A plain model of rings, and the answers to the rows of rb_ring_rows by it.

Written from Linux Documentation/bpf/ringbuf.rst, bpf-helpers(7), docs/DEFINITIONS.md and docs/DECISIONS.md, independently of the crates.
"""
import dataclasses

WRONG_WORDS = "fault: wrong words"
LONGEST = 1 << 26
MOST_TAKEN = 1 << 16
MOST_BYTES = 1 << 20
POSITION_LIMIT = 1 << 62
UNSIGNED_32 = (1 << 32) - 1
NO_WAKEUP, FORCE_WAKEUP = 1, 2


def span(length: int):
    """Returns the span of a record: eight bytes for its header, and its bytes rounded up to a multiple of eight."""
    return 8 + (length + 7) // 8 * 8


def is_size(size: int) -> bool:
    return 4096 <= size <= 1 << 26 and size & (size - 1) == 0


def is_start(start: int) -> bool:
    return start % 8 == 0 and start <= 1 << 61


def is_worker_count(workers: int) -> bool:
    return 1 <= workers <= 256


def refused_number(size: int, start: int, workers: int):
    """Returns the first number that no ring can have, or None."""
    if not is_size(size):
        return "size"
    if not is_start(start):
        return "start"
    return None if is_worker_count(workers) else "workers"


def is_due(consumer, pos, flags: int) -> bool:
    if flags & FORCE_WAKEUP:
        return True
    return not flags & NO_WAKEUP and pos == consumer


def notice(due):
    return " due" if due else " not due"


def runs(data):
    """Returns bytes in hex, each run of equal ones once, with its length if that is not 1."""
    if not data:
        return " none"
    text, at = "", 0
    while at < len(data):
        end = at
        while end < len(data) and data[end] == data[at]:
            end += 1
        text += f" {data[at]:02x}" + (f"*{end - at}" if end - at != 1 else "")
        at = end
    return text


@dataclasses.dataclass
class Record:
    pos: int
    worker: int
    serial: int
    length: int
    status: str = "busy"
    data: bytes = b""

    def numbers(self):
        return f" pos {self.pos} worker {self.worker} serial {self.serial} len {self.length}"


@dataclasses.dataclass
class Reservation:
    """A record that a worker holds: its numbers as they were granted, and the bytes that it wrote."""

    record: Record
    data: bytearray


class Tally:
    def __init__(self, made=0, refused=0, submitted=0, discarded=0) -> None:
        self.made, self.refused, self.submitted, self.discarded = made, refused, submitted, discarded

    def copy(self):
        return Tally(self.made, self.refused, self.submitted, self.discarded)

    def text(self):
        return f" made {self.made} refused {self.refused} submitted {self.submitted} discarded {self.discarded}"


@dataclasses.dataclass
class Snapshot:
    """The state of a ring after a prefix of its history."""

    size: int
    start: int
    producer: int
    consumer: int
    records: list
    tallies: list
    consumed: int = 0
    skipped: int = 0

    def copy(self):
        return dataclasses.replace(
            self, records=[dataclasses.replace(r) for r in self.records], tallies=[t.copy() for t in self.tallies]
        )

    def text(self):
        text = (
            f" size {self.size} start {self.start} workers {len(self.tallies)} producer {self.producer} consumer {self.consumer}"
            f" consumed {self.consumed} skipped {self.skipped}"
        )
        for record in self.records:
            text += f"; {record.status}{record.numbers()}"
        for tally in self.tallies:
            text += "; worker" + tally.text()
        return text

    def shown(self):
        return self.text()


class Chapter:
    """Some entries of a ring's history, with the state before them and the state after them."""

    def __init__(self, room: int, workers: int, number: int = 0, opening=None) -> None:
        self.room, self.number, self.entries = room, number, []
        self.opening = opening or Snapshot(0, 0, 0, 0, [], [Tally() for _ in range(workers)])
        self.closing = self.opening.copy()

    def owed(self):
        return sum(2 if record.status == "busy" else 1 for record in self.closing.records)

    def has_room_for(self, entries) -> bool:
        return len(self.entries) + self.owed() + entries <= self.room

    def meets(self, other) -> bool:
        return (
            other.number == self.number + 1
            and other.room == self.room
            and other.opening.shown() == self.closing.shown()
        )

    def numbers(self):
        return f" number {self.number} room {self.room} used {len(self.entries)} owed {self.owed()}"


def entries_text(entries):
    return f" {len(entries)}" + "".join("; " + entry for entry in entries)


# The maximal number of records that a worker holds at once.
HANDS = 4


class Ring:
    """One ring, the chapter that it keeps, and the records in the hands of its workers."""

    def __init__(self, size: int, start: int, workers: int, room: int) -> None:
        opening = Snapshot(size, start, start, start, [], [Tally() for _ in range(workers)])
        self.chapter = Chapter(room, workers, 0, opening)
        self.hands = [[None] * HANDS for _ in range(workers)]
        self.taken = []

    @property
    def now(self):
        return self.chapter.closing

    def log(self, entry) -> None:
        self.chapter.entries.append(entry)

    def has_worker(self, worker: int) -> bool:
        return worker < len(self.now.tallies)

    def grant(self, worker: int, length: int):
        """Returns the record that is granted, or the reason why none is."""
        now = self.now
        end = now.producer + span(length)
        if end > now.consumer + now.size - 1 or end > POSITION_LIMIT:
            if not self.chapter.has_room_for(1):
                return "chapter full"
            now.tallies[worker].refused += 1
            self.log(f"full {worker} {length}")
            return "full"
        if not self.chapter.has_room_for(3):
            return "chapter full"
        record = Record(now.producer, worker, now.tallies[worker].made, length)
        self.log(f"res {worker} {record.serial} {length} {record.pos}")
        now.records.append(record)
        now.tallies[worker].made += 1
        now.producer = end
        return record

    def settle(self, record, status, data=b"") -> None:
        record.status, record.data = status, data
        tally = self.now.tallies[record.worker]
        if status == "waiting":
            self.log(f"sub {record.pos}")
            tally.submitted += 1
        else:
            self.log(f"dis {record.pos}")
            tally.discarded += 1

    def busy_record(self, held):
        """Returns the busy record with the four numbers of a reservation."""
        for record in self.now.records:
            if record.status == "busy" and record.numbers() == held.numbers():
                return record
        return None

    def full_hands(self, length: int):
        """Returns the answer to a worker that holds as many records as it may."""
        return " fault: no free hand"

    def reserve(self, worker: int, length: int):
        """Puts a record into the lowest free hand of its worker."""
        hands = self.hands[worker]
        if None not in hands:
            return self.full_hands(length), None
        answer = self.grant(worker, length)
        if isinstance(answer, str):
            return f" refused {answer} back" + runs(b"\xff" * length), None
        held = Reservation(dataclasses.replace(answer), bytearray(length))
        held.hand = hands.index(None)
        hands[held.hand] = held.record
        return " granted" + answer.numbers() + " bytes" + runs(held.data), held

    def is_out(self, held) -> bool:
        """Returns whether the hand that the reservation names has a record with its numbers."""
        worker = held.record.worker
        out = self.hands[worker][held.hand] if self.has_worker(worker) else None
        return out is not None and out.numbers() == held.record.numbers()

    def end(self, held, status, flags: int):
        if not self.is_out(held):
            return " stray" + held.record.numbers(), held
        record = self.busy_record(held.record)
        self.hands[record.worker][held.hand] = None
        due = is_due(self.now.consumer, record.pos, flags)
        self.settle(record, status, bytes(held.data))
        return notice(due), None

    def output(self, worker: int, data, flags: int):
        if flags > 3:
            return " refused flags back" + runs(data)
        due = is_due(self.now.consumer, self.now.producer, flags)
        answer = self.grant(worker, len(data))
        if isinstance(answer, str):
            return f" refused {answer} back" + runs(data)
        self.settle(answer, "waiting", data)
        return notice(due)

    def take(self):
        now = self.now
        if not now.records:
            return " empty"
        if now.records[0].status == "busy":
            return " busy"
        record = now.records.pop(0)
        self.log(f"take {record.pos}")
        now.consumer += span(record.length)
        self.taken.append(record)
        if record.status == "discarded":
            now.skipped += 1
            return f" skipped pos {record.pos} len {record.length}"
        now.consumed += 1
        return " event" + record.numbers() + " bytes" + runs(record.data)

    def take_many(self, most):
        text, many = "", 0
        while many < most:
            one = self.take()
            if one in (" empty", " busy"):
                break
            text, many = text + ";" + one, many + 1
        return f" took {many}" + text

    def fill(self, most):
        """A batch of at most this many records."""
        before = len(self.taken)
        self.take_many(most)
        items = self.taken[before:]
        text = f" filled {len(items)}"
        for record in items:
            if record.status == "discarded":
                text += f"; skipped pos {record.pos} len {record.length}"
            else:
                text += f"; event pos {record.pos} worker {record.worker} serial {record.serial} bytes" + runs(
                    record.data
                )
        events = sum(record.status == "waiting" for record in items)
        return text + f"; events {events} sheets {events}"

    def written(self):
        """Returns the tape of everything that was taken: each record's header, its bytes, zeros if it was discarded, and zeros up to a multiple of eight."""
        tape = b""
        for record in self.taken:
            discarded = record.status == "discarded"
            word = record.length + (1 << 30 if discarded else 0)
            page = record.pos % self.now.size // 4096
            data = bytes(record.length) if discarded else record.data
            tape += word.to_bytes(4, "little") + page.to_bytes(4, "little") + data + bytes(-record.length % 8)
        return runs(tape)

    def query(self, what):
        now = self.now
        answers = [now.producer - now.consumer, now.size, now.consumer, now.producer]
        return answers[what] if what < 4 else 0

    def counts(self):
        now = self.now
        total = lambda name: sum(getattr(tally, name) for tally in now.tallies)
        status = [record.status for record in now.records]
        return (
            f" made {total('made')} refused {total('refused')} consumed {now.consumed} discarded {total('discarded')}"
            f" waiting {status.count('waiting')} busy {status.count('busy')}"
        )

    def fits(self, empty) -> bool:
        return (
            not empty.entries
            and empty.room == self.chapter.room
            and len(empty.opening.tallies) == len(self.now.tallies)
        )

    def hand_out(self, empty):
        """Returns the chapter that is handed out, or None if the other one is unfit."""
        old = self.chapter
        if not self.fits(empty):
            return None
        self.chapter = Chapter(old.room, 0, old.number + 1, old.closing.copy())
        return old

    def bind(self, chapters):
        chapters = chapters + [self.chapter]
        if [chapter.number for chapter in chapters] != list(range(len(chapters))):
            return " not bound number"
        first = chapters[0].opening
        is_first = first.producer == first.consumer == first.start and not first.records and is_size(first.size)
        nothing = Tally().text()
        is_first = (
            is_first and not first.consumed and not first.skipped and all(t.text() == nothing for t in first.tallies)
        )
        if not is_first or not all(one.meets(other) for one, other in zip(chapters, chapters[1:])):
            return " not bound opening"
        return entries_text([entry for chapter in chapters for entry in chapter.entries])


def handed_back(held):
    return " handed back" + held.record.numbers()


class SharedRing(Ring):
    """A ring with seats; each call of a seat is one call of a ring."""

    def __init__(self, tag, size: int, start: int, workers: int, room: int) -> None:
        super().__init__(size, start, workers, room)
        self.tag = tag

    def seat(self, worker: int):
        if not self.has_worker(worker):
            return " fault: no such worker"
        hands = "".join(" -" if out is None else f" {out.pos}" for out in self.hands[worker])
        return f" tag {self.tag} worker {worker}" + self.now.tallies[worker].text() + " hands" + hands

    def full_hands(self, length: int):
        return " refused hands full back" + runs(b"\xff" * length)

    def reserve(self, worker: int, length: int):
        answer, held = super().reserve(worker, length)
        if held:
            held.tag = self.tag
        return answer, held

    def give_back(self, worker: int, held, status, flags: int):
        """Commits if the worker's hand that the reservation names has a record with its numbers, and hands the reservation back otherwise."""
        if held.tag != self.tag or held.record.worker != worker or not self.is_out(held):
            return handed_back(held), held
        return self.end(held, status, flags)

    def consumer(self):
        now = self.now
        return (
            f" tag {self.tag} workers {len(now.tallies)} room {self.chapter.room} position {now.consumer}"
            f" consumed {now.consumed} skipped {now.skipped} chapters {self.chapter.number}"
        )

    def audit(self, worker: int):
        now = self.now
        return (
            f" producer {now.producer} consumer {now.consumer}" + self.counts() + "; own" + now.tallies[worker].text()
        )

    def used(self):
        return f" used {len(self.chapter.entries)} owed {self.chapter.owed()}"

    def totals(self):
        now = self.now
        return (
            f" tag {self.tag} producer {now.producer} consumer {now.consumer}"
            + self.counts()
            + f" chapter {self.chapter.number}"
        )


class Keeper:
    """A chapter that replaces a ring's when that is nearly full, and is used again at the next turn."""

    def __init__(self, chapter, margin) -> None:
        self.chapter, self.margin, self.is_lent = chapter, margin, False

    def turn(self, ring):
        empty = Chapter(self.chapter.room, len(self.chapter.opening.tallies)) if self.is_lent else self.chapter
        if not ring.fits(empty):
            return " unfit"
        used = len(ring.chapter.entries)
        if not used or used + ring.chapter.owed() + 3 + self.margin <= ring.chapter.room:
            return " none"
        self.chapter, self.is_lent = ring.hand_out(empty), True
        return f" chapter {self.chapter.number} used {used}"
