"""The answers to the rows of rb_ring_rows, by the plain model of rings."""
import re

from heskavo.rows import ring_model as model
from heskavo.rows.ring_model import WRONG_WORDS, Chapter, Keeper, Ring, SharedRing


class Row:
    """A row in its parts, as the program's docs describe them: a verb, names, numbers, and bytes after a colon."""

    def __init__(self, line: str) -> None:
        words, _, behind = line.partition(":")
        self.verb, self.names, self.numbers, self.data = "", [], [], bytearray()
        self.is_right = all(self.add_word(word) for word in words.split()) and all(map(self.add_run, behind.split()))

    def add_word(self, word):
        if re.match(r"[0-9]", word):
            if not word.isdigit() or int(word) >= 1 << 64:
                return False
            self.numbers.append(int(word))
        elif not re.match(r"[A-Za-z]", word):
            return False
        elif not self.verb:
            self.verb = word
        else:
            self.names.append(word)
        return True

    def add_run(self, word):
        run = re.fullmatch(r"([0-9a-fA-F]{2})(?:\*([0-9]+))?", word)
        if not run:
            return False
        times = int(run[2]) if run[2] else 1
        if len(self.data) + times > model.MOST_BYTES:
            return False
        self.data += bytes.fromhex(run[1]) * times
        return True

    def shape(self):
        return self.verb, len(self.names), len(self.numbers)


def narrow(number: int):
    return min(number, model.UNSIGNED_32)


class Script:
    """The named values of a script, and the answers to its rows."""

    def __init__(self) -> None:
        self.rings, self.records, self.chapters = {}, {}, {}
        self.shared, self.shared_records, self.closed, self.tags = {}, {}, {}, 0
        self.keepers, self.sheets = {}, {}

    def answer(self, line: str):
        row = Row(line)
        if not row.is_right:
            return " fault: no word"
        first = row.names[0] if row.names else ""
        if row.verb != "share" and first in self.shared:
            call = getattr(self, "shared_" + row.verb, None)
        elif row.verb == "bind" and first in self.closed:
            call = self.bind_closed
        else:
            call = getattr(self, "call_" + row.verb, None)
        return call(row) if call else " fault: no such command"

    def call_open(self, row):
        if row.shape() != ("open", 1, 4):
            return " " + WRONG_WORDS
        size, start, workers, room = row.numbers
        refused = model.refused_number(size, start, workers)
        if refused is None and not 8 <= room <= 1 << 20:
            refused = "chapter"
        if refused:
            return f" refused {refused}"
        self.rings[row.names[0]] = Ring(size, start, workers, room)
        return " opened"

    def call_reserve(self, row):
        if row.shape() != ("reserve", 2, 2) or row.numbers[1] > model.LONGEST:
            return " " + WRONG_WORDS
        ring, worker = self.rings.get(row.names[0]), narrow(row.numbers[0])
        if ring is None:
            return " fault: no such ring"
        if not ring.has_worker(worker):
            return " fault: no such worker"
        answer, held = ring.reserve(worker, row.numbers[1])
        if held:
            self.records[row.names[1]] = held
        return answer

    def call_write(self, row):
        if row.shape() != ("write", 1, 1):
            return " " + WRONG_WORDS
        name, at = row.names[0], row.numbers[0]
        held = self.records.get(name) or self.shared_records.get(name)
        target = held.data if held else self.sheets.get(name)
        if target is None:
            return " fault: no such record"
        if at + len(row.data) > len(target):
            return " fault: outside"
        target[at : at + len(row.data)] = row.data
        return (held.record.numbers() if held else f" len {len(target)}") + " bytes" + model.runs(target)

    def call_submit(self, row):
        return self.end(row, "waiting")

    def call_discard(self, row):
        return self.end(row, "discarded")

    def end(self, row, status):
        if row.shape()[1:] != (2, 1):
            return " " + WRONG_WORDS
        ring = self.rings.get(row.names[0])
        if ring is None:
            return " fault: no such ring"
        held = self.records.pop(row.names[1], None)
        if held is None:
            return " fault: no such record"
        answer, stray = ring.end(held, status, row.numbers[0])
        if stray:
            self.records[row.names[1]] = stray
        return answer

    def call_output(self, row):
        if row.shape() != ("output", 1, 2):
            return " " + WRONG_WORDS
        ring, worker = self.rings.get(row.names[0]), narrow(row.numbers[0])
        if ring is None:
            return " fault: no such ring"
        if not ring.has_worker(worker):
            return " fault: no such worker"
        return ring.output(worker, bytes(row.data), row.numbers[1])

    def asked(self, row):
        """Returns the ring that a row names, or what is wrong with the row."""
        if len(row.names) != 1:
            return None, " " + WRONG_WORDS
        ring = self.rings.get(row.names[0])
        return ring, " fault: no such ring"

    def call_take(self, row):
        ring, fault = self.asked(row)
        if ring is None:
            return fault
        if not row.numbers:
            return ring.take()
        if len(row.numbers) == 1 and row.numbers[0] <= model.MOST_TAKEN:
            return ring.take_many(row.numbers[0])
        return " " + WRONG_WORDS

    def call_query(self, row):
        ring, fault = self.asked(row)
        if ring is None:
            return fault
        return f" {ring.query(row.numbers[0])}" if len(row.numbers) == 1 else " " + WRONG_WORDS

    def call_counts(self, row):
        ring, fault = self.asked(row)
        if ring is None:
            return fault
        return " " + WRONG_WORDS if row.numbers else ring.counts()

    def call_written(self, row):
        ring, fault = self.asked(row)
        if ring is None:
            return fault
        return " " + WRONG_WORDS if row.numbers else ring.written()

    def call_handout(self, row):
        if row.shape() != ("handout", 2, 0):
            return " " + WRONG_WORDS
        ring = self.rings.get(row.names[0])
        if ring is None:
            return " fault: no such ring"
        empty = self.chapters.get(row.names[1])
        if empty is None:
            return " fault: no such chapter"
        chapter = ring.hand_out(empty)
        if chapter is None:
            return " unfit"
        self.chapters[row.names[1]] = chapter
        return f" chapter {chapter.number} used {len(chapter.entries)}"

    def call_bind(self, row):
        if not row.names or row.numbers:
            return " " + WRONG_WORDS
        ring, names = self.rings.get(row.names[0]), row.names[1:]
        if ring is None:
            return " fault: no such ring"
        if len(set(names)) < len(names) or any(name not in self.chapters for name in names):
            return " fault: no such chapter"
        return ring.bind([self.chapters[name] for name in names])

    def call_share(self, row):
        if row.shape() != ("share", 1, 4):
            return " " + WRONG_WORDS
        self.tags += 1
        size, start, workers, room = row.numbers
        refused = model.refused_number(size, start, workers) or (None if 8 <= room <= 1 << 20 else "chapter")
        if refused:
            return f" refused {refused}"
        self.shared[row.names[0]] = SharedRing(self.tags, size, start, workers, room)
        return f" opened seats {workers}"

    def seat(self, row, has_record, numbers):
        """Returns the ring, the seat's own ring and its worker that a row names, or what is wrong with the row."""
        names = row.names[2:] if has_record else row.names[1:]
        if len(row.names) < 1 + has_record or len(names) > 1 or len(row.numbers) != numbers:
            return None, " " + WRONG_WORDS
        ring = self.shared[row.names[0]]
        home = self.shared.get(names[0]) if names else ring
        if home is None:
            return None, " fault: no such ring"
        worker = row.numbers[0]
        if not home.has_worker(worker):
            return None, " fault: no such worker"
        return (ring, ring is not home, worker), ""

    def shared_reserve(self, row):
        seat, fault = self.seat(row, True, 2)
        if not seat:
            return fault
        (ring, foreign, worker), length = seat, row.numbers[1]
        if length > model.LONGEST:
            return " " + WRONG_WORDS
        if foreign:
            return " refused foreign back" + model.runs(b"\xff" * length)
        answer, held = ring.reserve(worker, length)
        if held:
            self.shared_records[row.names[1]] = held
        return answer

    def shared_submit(self, row):
        return self.end_shared(row, "waiting")

    def shared_discard(self, row):
        return self.end_shared(row, "discarded")

    def end_shared(self, row, status):
        seat, fault = self.seat(row, True, 2)
        if not seat:
            return fault
        held = self.shared_records.pop(row.names[1], None)
        if held is None:
            return " fault: no such record"
        ring, foreign, worker = seat
        answer, back = model.handed_back(held), held
        if not foreign:
            answer, back = ring.give_back(worker, held, status, row.numbers[1])
        if back:
            self.shared_records[row.names[1]] = back
        return answer

    def shared_output(self, row):
        seat, fault = self.seat(row, False, 2)
        if not seat:
            return fault
        ring, foreign, worker = seat
        if foreign:
            return " refused foreign back" + model.runs(row.data)
        return ring.output(worker, bytes(row.data), row.numbers[1])

    def shared_query(self, row):
        seat, fault = self.seat(row, False, 2)
        if not seat:
            return fault
        ring, foreign, _ = seat
        return " foreign" if foreign else f" {ring.query(row.numbers[1])}"

    def shared_audit(self, row):
        seat, fault = self.seat(row, False, 1)
        if not seat:
            return fault
        ring, foreign, worker = seat
        return " foreign" if foreign else ring.audit(worker)

    def shared_take(self, row):
        many = row.numbers[0] if row.numbers else None
        if len(row.numbers) > 1 or (many or 0) > model.MOST_TAKEN:
            return " " + WRONG_WORDS
        return self.consumed(row, lambda ring: ring.take() if many is None else ring.take_many(many))

    def shared_fill(self, row):
        if len(row.numbers) != 1 or row.numbers[0] > model.MOST_TAKEN:
            return " " + WRONG_WORDS
        return self.consumed(row, lambda ring: ring.fill(row.numbers[0]))

    def shared_used(self, row):
        return " " + WRONG_WORDS if row.numbers else self.consumed(row, SharedRing.used)

    def consumed(self, row, call):
        home = self.shared.get(row.names[-1]) if len(row.names) <= 2 else None
        if home is None:
            return " fault: no such ring"
        ring = self.shared[row.names[0]]
        return call(ring) if ring is home else " foreign"

    def shared_handout(self, row):
        if len(row.names) not in (2, 3) or row.numbers:
            return " " + WRONG_WORDS
        ring, home = self.shared[row.names[0]], self.shared.get(row.names[2] if row.names[2:] else row.names[0])
        if home is None:
            return " fault: no such ring"
        empty = self.chapters.get(row.names[1])
        if empty is None:
            return " fault: no such chapter"
        if ring is not home:
            return " foreign"
        chapter = ring.hand_out(empty)
        if chapter is None:
            return " unfit"
        self.chapters[row.names[1]] = chapter
        return f" chapter {chapter.number} used {len(chapter.entries)}"

    def shared_turn(self, row):
        if len(row.names) not in (2, 3) or row.numbers:
            return " " + WRONG_WORDS
        ring, home = self.shared[row.names[0]], self.shared.get(row.names[2] if row.names[2:] else row.names[0])
        if home is None:
            return " fault: no such ring"
        keeper = self.keepers.get(row.names[1])
        if keeper is None:
            return " fault: no such keeper"
        return keeper.turn(ring) if ring is home else " foreign"

    def call_keeper(self, row):
        if row.shape() != ("keeper", 2, 1):
            return " " + WRONG_WORDS
        chapter = self.chapters.pop(row.names[1], None)
        if chapter is None:
            return " fault: no such chapter"
        self.keepers[row.names[0]] = Keeper(chapter, narrow(row.numbers[0]))
        return " made"

    def call_kept(self, row):
        if row.shape() != ("kept", 2, 0):
            return " " + WRONG_WORDS
        keeper = self.keepers.pop(row.names[0], None)
        if keeper is None:
            return " fault: no such keeper"
        chapter = self.chapters[row.names[1]] = keeper.chapter
        return f" chapter {chapter.number} used {len(chapter.entries)}"

    def shared_seat(self, row):
        if len(row.names) != 1 or len(row.numbers) != 1:
            return " " + WRONG_WORDS
        return self.shared[row.names[0]].seat(row.numbers[0])

    def shared_consumer(self, row):
        if len(row.names) != 1 or row.numbers:
            return " " + WRONG_WORDS
        return self.shared[row.names[0]].consumer()

    def shared_close(self, row):
        if (len(row.names), len(row.numbers)) not in ((1, 0), (1, 1), (2, 0)):
            return " " + WRONG_WORDS
        if row.names[1:]:
            return (
                " not all" if row.names[1] in self.shared and row.names[1] != row.names[0] else " fault: no such ring"
            )
        if row.numbers:
            return " not all"
        ring = self.closed[row.names[0]] = self.shared.pop(row.names[0])
        return " closed" + ring.totals()

    def bind_closed(self, row):
        if row.numbers:
            return " " + WRONG_WORDS
        names = row.names[1:]
        if len(set(names)) < len(names) or any(name not in self.chapters for name in names):
            return " fault: no such chapter"
        answer = self.closed[row.names[0]].bind([self.chapters[name] for name in names])
        if not answer.startswith(" not"):
            del self.closed[row.names[0]]
            for name in names:
                del self.chapters[name]
        return answer

    def call_chapter(self, row):
        if row.shape() != ("chapter", 1, 2):
            return " " + WRONG_WORDS
        room, workers = map(narrow, row.numbers)
        if not 8 <= room <= 1 << 20 or not model.is_worker_count(workers):
            return " fault: out of bounds"
        self.chapters[row.names[0]] = Chapter(room, workers)
        return " made"

    def call_clear(self, row):
        if row.shape() != ("clear", 1, 0):
            return " " + WRONG_WORDS
        old = self.chapters.get(row.names[0])
        if old is None:
            return " fault: no such chapter"
        self.chapters[row.names[0]] = Chapter(old.room, len(old.opening.tallies))
        return " cleared"

    def call_after(self, row):
        if row.shape() != ("after", 2, 0):
            return " " + WRONG_WORDS
        old, earlier = (self.chapters.get(name) for name in row.names)
        if old is None or earlier is None or row.names[0] == row.names[1]:
            return " fault: no such chapter"
        if old.entries or old.room != earlier.room or len(old.opening.tallies) != len(earlier.opening.tallies):
            return " fault: unfit"
        self.chapters[row.names[0]] = Chapter(old.room, 0, earlier.number + 1, earlier.closing.copy())
        return f" chapter {earlier.number + 1}"

    def call_meets(self, row):
        if row.shape() != ("meets", 2, 0):
            return " " + WRONG_WORDS
        one, other = (self.chapters.get(name) for name in row.names)
        if one is None or other is None:
            return " fault: no such chapter"
        return " yes" if one.meets(other) else " no"

    def chapter_named(self, row):
        """Returns the chapter that a ring keeps, or the one with the name, or what is wrong with the row."""
        if row.shape()[1:] != (1, 0):
            return None, " " + WRONG_WORDS
        name = row.names[0]
        chapter = self.rings[name].chapter if name in self.rings else self.chapters.get(name)
        return chapter, " fault: no such chapter"

    def call_show(self, row):
        chapter, fault = self.chapter_named(row)
        return fault if chapter is None else chapter.numbers()

    def call_opening(self, row):
        chapter, fault = self.chapter_named(row)
        return fault if chapter is None else chapter.opening.text()

    def call_closing(self, row):
        chapter, fault = self.chapter_named(row)
        return fault if chapter is None else chapter.closing.text()

    def call_entries(self, row):
        chapter, fault = self.chapter_named(row)
        return fault if chapter is None else model.entries_text(chapter.entries)

    def call_sheet(self, row):
        if row.shape() != ("sheet", 1, 1) or row.numbers[0] > model.LONGEST:
            return " " + WRONG_WORDS
        return self.zeros(row.names[0], row.numbers[0])

    def call_renew(self, row):
        if row.shape() != ("renew", 1, 1) or row.numbers[0] > model.LONGEST:
            return " " + WRONG_WORDS
        return self.zeros(*row.names, *row.numbers) if row.names[0] in self.sheets else " fault: no such sheet"

    def call_wipe(self, row):
        if row.shape() != ("wipe", 1, 0):
            return " " + WRONG_WORDS
        name = row.names[0]
        return self.zeros(name, len(self.sheets[name])) if name in self.sheets else " fault: no such sheet"

    def zeros(self, name: str, length: int):
        self.sheets[name] = bytearray(length)
        return f" len {length} bytes" + model.runs(self.sheets[name])

    def call_span(self, row):
        return f" {model.span(narrow(row.numbers[0]))}" if len(row.numbers) == 1 else " fault: no such command"

    def call_setup(self, row):
        if len(row.numbers) != 3:
            return " fault: no such command"
        size, start, workers = row.numbers
        tests = [
            (model.is_size(size), "size"),
            (model.is_start(start), "start"),
            (model.is_worker_count(workers), "workers"),
        ]
        refused = model.refused_number(size, start, workers)
        text = "".join(f" {word}" if holds else f" no {word}" for holds, word in tests)
        return text + (f" refused {refused}" if refused else " allowed")

    def call_notice(self, row):
        return model.notice(model.is_due(*row.numbers)) if len(row.numbers) == 3 else " fault: no such command"

    def call_encode(self, row):
        if len(row.numbers) != 4:
            return " fault: no such command"
        length, busy, discard, page = row.numbers
        if length >= 1 << 30 or (busy and discard):
            return " " + WRONG_WORDS
        word = length + (1 << 31 if busy else 0) + (1 << 30 if discard else 0)
        return model.runs(word.to_bytes(4, "little") + narrow(page).to_bytes(4, "little"))

    def call_decode(self, row):
        if row.numbers:
            return " fault: no such command"
        if len(row.data) < 8:
            return " " + WRONG_WORDS
        word, page = int.from_bytes(row.data[:4], "little"), int.from_bytes(row.data[4:8], "little")
        busy, discard = word >> 31, word >> 30 & 1
        if busy and discard:
            return " both bits"
        return f" len {word % (1 << 30)} busy {busy} discard {discard} page {page}"

    def call_tape(self, row):
        if len(row.numbers) != 2:
            return " fault: no such command"
        size, start = row.numbers
        refused = model.refused_number(size, start, 1)
        return f" refused {refused}" if refused else read_tape(bytes(row.data), size, start)


def read_tape(data, size: int, start: int):
    """Returns the records of a tape, what is wrong after them, and their number."""
    text, at, records = "", 0, 0
    while at < len(data):
        fault, record, taken = front_of_tape(data[at:], size, start + at)
        if fault:
            text += f" {fault} at {at}"
            break
        text, at, records = text + record, at + taken, records + 1
    return f"{text} records {records}"


def front_of_tape(data, size: int, position: int):
    """Returns the first record of the rest of a tape: its fault, or its text and span."""
    if len(data) < 8:
        return "truncated", "", 0
    word, page = int.from_bytes(data[:4], "little"), int.from_bytes(data[4:8], "little")
    length, discarded = word % (1 << 30), word >> 30 & 1
    span = model.span(length)
    if word >> 31:
        return "busy", "", 0
    if page != position % size // 4096:
        return "page", "", 0
    if span > size - 1 or position + span > model.POSITION_LIMIT:
        return "too long", "", 0
    if len(data) < span:
        return "truncated", "", 0
    payload, padding = data[8 : 8 + length], data[8 + length : span]
    if discarded and any(payload):
        return "discarded bytes", "", 0
    if any(padding):
        return "padding", "", 0
    if discarded:
        return "", f" discarded pos {position} len {length};", span
    return "", f" event pos {position} len {length} bytes{model.runs(payload)};", span


def answers(text: str):
    """Returns what the program prints for these rows."""
    script, out = Script(), []
    for line in text.removesuffix("\n").split("\n"):
        if not line:
            script = Script()
        if not line or line.startswith("#"):
            out.append(line)
        else:
            out.append(f"{line} ->{script.answer(line)}")
    return "".join(line + "\n" for line in out)
