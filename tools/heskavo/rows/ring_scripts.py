"""Generates random scripts over rings, for the program and the model to answer."""
import random

from heskavo.rows import ring_model as model, ring_rows

SIZES = [4096] * 6 + [8192, 8192, 65536]
STARTS = [0, 0, 0, 8, 4088, 4096, (1 << 61) - 8, 1 << 61]
ROOMS = [8, 8, 9, 12, 16, 64, 65536]


class Drawing:
    """A script over rings of one thread. The model answers each row when it is generated, so that later rows can depend on it."""

    opens = "open"
    # The maximal number of records that a worker holds: one more than it has hands, so that one is refused.
    most_held = model.HANDS + 1
    opened = " opened"
    rings = ("a", "b")

    def __init__(self, seed: int) -> None:
        self.random = random.Random(seed)
        self.script = ring_rows.Script()
        self.rows = []
        self.setups = {}
        self.held = {}
        self.handed_out = {}
        self.names = 0

    def row(self, *words):
        text = " ".join(str(word) for word in words if word != "")
        answer = self.script.answer(text)
        self.rows.append((text, answer))
        return answer

    def name(self, letter):
        self.names += 1
        return f"{letter}{self.names}"

    def one_of(self, *choices):
        return self.random.choice(choices)

    def chance(self, probability):
        return self.random.random() < probability

    def open(self, ring) -> None:
        size, start, room = (self.random.choice(choices) for choices in (SIZES, STARTS, ROOMS))
        workers = self.random.randrange(1, 5)
        if self.chance(0.05):
            size, start, workers, room = self.one_of(
                (4095, start, workers, room),
                (size, 4, workers, room),
                (size, start, 0, room),
                (size, start, 257, room),
                (size, start, workers, 7),
                (size, (1 << 61) + 8, workers, room),
                (1 << 27, start, workers, room),
            )
        if self.row(self.opens, ring, size, start, workers, room).startswith(self.opened):
            self.setups[ring] = (size, workers, room)
            self.handed_out[ring] = []

    def ring(self):
        return self.random.choice(list(self.setups)) if self.chance(0.98) else "nowhere"

    def worker(self, ring):
        workers = self.setups.get(ring, (0, 1, 0))[1]
        return self.random.randrange(workers) if self.chance(0.98) else workers + self.one_of(0, 1, 1 << 32)

    def length(self, ring):
        size = self.setups.get(ring, (4096, 1, 8))[0]
        return self.one_of(
            self.random.randrange(64),
            self.random.randrange(64),
            self.random.randrange(64),
            self.random.randrange(min(size, 3000)),
            size // 2 - self.random.randrange(32),
            size - self.random.randrange(32),
            0,
        )

    def flags(self):
        return self.one_of(0, 0, 0, 0, 1, 2, 3, self.random.randrange(8), self.random.randrange(1 << 64))

    def data(self, length: int):
        """Returns this many bytes, in up to three runs."""
        cuts = sorted(self.random.randrange(length + 1) for _ in range(2))
        pieces = zip([0, *cuts], [*cuts, length])
        return b"".join(bytes([self.random.randrange(256)]) * (end - start) for start, end in pieces)

    def spelled(self, length: int):
        return ":" + (model.runs(self.data(length)) if length else "")

    def held_by(self, ring, worker: int):
        return sum(1 for held in self.held.values() if held == (ring, worker))

    def record_of(self, record):
        return self.script.records[record].record

    def reserve(self) -> None:
        ring = self.ring()
        worker = self.worker(ring)
        if self.held_by(ring, worker) >= self.most_held:
            return
        record = self.name("r")
        if self.row("reserve", ring, record, self.home(ring), worker, self.length(ring)).startswith(" granted"):
            self.held[record] = (ring, worker)
            if self.chance(0.6):
                self.write(record)

    def home(self, ring):
        """Returns the ring whose seat makes the call, if it is another one."""
        return ""

    def write(self, record) -> None:
        length = self.record_of(record).length
        start = self.random.randrange(length + 1)
        many = self.random.randrange(length - start + 1) if self.chance(0.95) else length - start + 1
        self.row("write", record, start, self.spelled(many))

    def end(self) -> None:
        if not self.held:
            return
        record = self.one_of(*self.held)
        ring = self.held[record][0] if self.chance(0.9) else self.ring()
        if "due" in self.row(
            self.one_of("submit", "submit", "discard"), ring, record, *self.ender(ring, record), self.flags()
        ):
            del self.held[record]

    def ender(self, ring, record):
        """Returns the words by which a row says who commits a record."""
        return ()

    def output(self) -> None:
        ring = self.ring()
        self.row(
            "output",
            ring,
            self.home(ring),
            self.worker(ring),
            self.one_of(0, 0, 0, self.flags()),
            self.spelled(self.length(ring)),
        )

    def take(self) -> None:
        ring = self.ring()
        self.row(
            "take", ring, self.home(ring), self.one_of("", "", "", self.random.randrange(5), self.random.randrange(100))
        )

    def ask(self) -> None:
        ring = self.ring()
        self.row(*self.one_of(("query", ring, self.random.randrange(6)), ("counts", ring), ("show", ring)))

    def look(self) -> None:
        if self.chance(0.5):
            self.bind()
        else:
            self.row(self.one_of("closing", "opening", "entries", "show"), self.ring())

    def hand_out(self) -> None:
        ring = self.ring()
        if ring not in self.setups:
            return
        _, workers, room = self.setups[ring]
        if self.chance(0.1):
            room, workers = self.one_of((room + 1, workers), (room, workers % 4 + 1))
        chapter = self.name("c")
        self.row("chapter", chapter, room, workers)
        if self.row("handout", ring, chapter, self.home(ring)).startswith(" chapter"):
            self.handed_out[ring].append(chapter)
            if self.chance(0.2):
                self.row("handout", ring, chapter)

    def bind(self) -> None:
        ring = self.ring()
        chapters = list(self.handed_out.get(ring, []))
        if chapters and self.chance(0.3):
            self.random.shuffle(chapters)
        if chapters and self.chance(0.2):
            chapters.pop()
        self.row("bind", ring, *chapters)

    def tape(self) -> None:
        size, start = self.one_of(4096, 8192), self.one_of(0, 8, 4088, 8184)
        data, position = bytearray(), start
        for _ in range(self.random.randrange(5)):
            length, discarded = self.one_of(0, 1, 7, 8, 9, self.random.randrange(300)), self.chance(0.3)
            payload = bytes(length) if discarded else self.data(length)
            word = length + (1 << 30 if discarded else 0)
            data += (
                word.to_bytes(4, "little")
                + (position % size // 4096).to_bytes(4, "little")
                + payload
                + bytes(-length % 8)
            )
            position += model.span(length)
        if data and self.chance(0.6):
            data[self.random.randrange(len(data))] ^= 1 << self.random.randrange(8)
        if data and self.chance(0.4):
            del data[self.random.randrange(len(data)) :]
        self.row("tape", size, start, ":" + (model.runs(data) if data else ""))

    def hostile(self) -> None:
        self.row(
            self.one_of(
                "submit a",
                "discard b nothing 0",
                "take",
                "take a 1 2",
                "bind nowhere",
                "handout a nothing",
                "write nothing 0 : 00",
                "output a 0 0 : 1",
                "open a 1",
                "reserve a",
                "reserve a r 0 67108865",
                "take a -1",
                "query a",
                "chapter c 7 1",
                "?",
                "what a 1",
                "submit s",
                "discard t nothing 0 0",
                "take s 1 2",
                "handout s nothing",
                "output s 0 : 00",
                "share s 1",
                "audit s",
                "seat s",
                "close s 1 1",
                "close nowhere",
                "used s 1",
            )
        )

    def calls(self):
        many = [self.reserve] * 10 + [self.output] * 6 + [self.end] * 9 + [self.take] * 8 + [self.ask] * 4
        return many + [self.hand_out, self.hand_out, self.look, self.hostile, self.tape]

    def finish(self) -> None:
        if self.chance(0.1):
            self.open(self.rings[0])
        for ring in self.setups:
            self.row("bind", ring, *self.handed_out[ring])
            self.row("closing", ring)
            self.row("written", ring)

    def draw(self):
        self.open(self.rings[0])
        if self.chance(0.5):
            self.open(self.rings[1])
        for _ in range(self.random.randrange(10, 60)):
            if self.setups:
                self.random.choice(self.calls())()
        self.finish()
        return self.rows


class SharedDrawing(Drawing):
    """A script over shared rings."""

    opens = "share"
    rings = ("s", "t")

    def home(self, ring):
        return self.one_of(*self.setups) if self.chance(0.04) else ""

    def record_of(self, record):
        return self.script.shared_records[record].record

    def ender(self, ring, record):
        worker = self.held[record][1] if self.chance(0.95) else self.worker(ring)
        return self.home(ring), worker

    def take(self) -> None:
        if self.chance(0.2):
            ring = self.ring()
            self.row("fill", ring, self.home(ring), self.random.randrange(6))
        else:
            super().take()

    def turn(self) -> None:
        """Lets a separate keeper look at a ring's chapter; the chapter that it lends gets a name."""
        ring = self.ring()
        if ring not in self.setups:
            return
        _, workers, room = self.setups[ring]
        chapter = self.name("c")
        self.row("chapter", chapter, room + self.one_of(0, 0, 0, 0, 0, 0, 1), workers)
        self.row("keeper", "k", chapter, self.one_of(0, 1, 3, room, 1 << 32))
        lent = self.row("turn", ring, "k", self.home(ring)).startswith(" chapter")
        self.row("kept", "k", chapter)
        if lent:
            self.handed_out[ring].append(chapter)

    def hand_out(self) -> None:
        if self.chance(0.5):
            self.turn()
        else:
            super().hand_out()

    def ask(self) -> None:
        ring = self.ring()
        home, worker = self.home(ring), self.worker(ring)
        self.row(
            *self.one_of(
                ("query", ring, home, worker, self.random.randrange(6)),
                ("audit", ring, home, worker),
                ("seat", ring, worker),
                ("consumer", ring),
                ("used", ring, home),
            )
        )

    def look(self) -> None:
        chapters = self.handed_out.get(self.ring())
        self.row(self.one_of("show", "opening", "closing", "entries"), self.one_of(*chapters) if chapters else "c0")

    def finish(self) -> None:
        for ring in list(self.setups):
            if self.chance(0.2):
                self.row("close", ring, self.one_of("1", *self.setups))
            if self.row("close", ring).startswith(" closed"):
                chapters = self.handed_out[ring]
                if chapters and self.chance(0.3):
                    self.row("bind", ring, *self.random.sample(chapters, len(chapters)))
                self.row("bind", ring, *chapters)


def drawn_script(seed: int, number: int):
    """Returns the rows of a script, each with its answer. Two scripts of five are over shared rings."""
    kind = SharedDrawing if number % 5 > 2 else Drawing
    return kind(f"{seed} {number}").draw()
