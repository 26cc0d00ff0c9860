"""The numbers that the documents state, and the places in the code that have them.

STATED has an entry for each statement: the document, its text with # for each number, and the places in the code that
have those numbers, in the same order. A place is a file below crates/ (or from the top, as docs/NAME.md) and a text,
again with # for a number, of which the first occurrence counts; or a function that returns the numbers. The text must
occur in its document, and each occurrence must have the numbers of the code. A number may be a word up to twenty, and
may contain commas or underscores.
"""
import re
from collections.abc import Callable, Iterator, Sequence

from heskavo.documents.numbers import first, matches, text_of
from heskavo.repository import ROOT, libraries_of_crates

Place = tuple[str, str]
Source = Place | Callable[[], list[int]]


def variants(file: str, name: str) -> int:
    """Returns the number of variants of an enum."""
    body = re.search(rf"enum {name} \{{(.*?)\n\}}", text_of(file), re.S)
    return len(re.findall(r"(?m)^    [A-Z]\w*", body[1] if body else ""))


def forms() -> list[int]:
    """Returns the number of forms of instructions, without the one for instructions that have none."""
    return [variants("rb_verifier/src/operation.rt", "Operation") - 1]


def classes() -> list[int]:
    return [variants("rb_portable/src/linux_class.rt", "LinuxClass")]


def rules() -> list[int]:
    return [variants("rb_verifier/src/rule.rt", "Rule")]


def worked_runs() -> list[int]:
    return [len(re.findall(r"(?m)^\w+ : runs ", text_of("rb_semantics/proofs/Worked.antt")))]


def longest_chain() -> list[int]:
    """Returns the length of the longest chain of crates below the program, including the program."""
    crates = libraries_of_crates()

    def depth(crate: str) -> int:
        return 1 + max((depth(below) for below in crates[crate] if below in crates), default=0)

    return [depth("rbhost")]


def programs_in_c() -> list[int]:
    return [len(list((ROOT / "examples" / "c").glob("*.c")))]


def least_lengths() -> list[int]:
    """Returns the sizes of rings above 2 MiB, and the minimal length of their records for their chapters."""
    found = matches(text_of(LAW_OF_CHAPTERS), "of_#_mib : (least : ℕ) → # ≤ least")
    return [size for size, _ in found] + [length for _, length in found]


def trusted_lines() -> list[int]:
    """Returns the number of lines of definitions of `Closing::bind`, by the table of DEFINITIONS.md."""
    return [int(lines) for lines in re.findall(r"Closing::bind` \| \d+ \| \d+ \| (\d+)", text_of("DEFINITIONS.md"))]


def medians(name: str) -> list[int]:
    """Returns the minimal and the maximal median of rows of PERFORMANCE.md, each as two numbers, before and after the decimal point."""
    found = [float(rate) for rate in re.findall(rf"(?m)^\| {name}.*?\| M/s \| ([\d.]+)", text_of("PERFORMANCE.md"))]
    return [int(part) for rate in (min(found), max(found)) for part in f"{rate:.1f}".split(".")]


BOUNDS = "rb_history/src/bounds.rt"
SIZES = (BOUNDS, "size < # || size > #")
STARTS = (BOUNDS, "start % # == 0 && start <= 1 << #")
WORKERS = (BOUNDS, "# <= workers && workers <= #")
LIMIT = (BOUNDS, "POSITION_LIMIT: u64 = 1 << #")
UNITS = ("rb_program/src/program.rt", "MAX_UNITS: u32 = #")
SHORT = ("rb_lend/src/short.rt", "CAPACITY: usize = #")
HANDS = ("rb_chapter_ring/src/ring.rt", "Vec<[Option<OutRecord>; #]>")
TRIES = ("rb_jobs/src/ring_calls.rt", "CHAPTER_TRIES: u32 = #")
BATCH = ("rb_workers/src/pace.rt", "BATCH: usize = #")
PART_OF_ROOM = ("rb_workers/src/pace.rt", "PART_OF_ROOM: usize = #")
SIZES_OF_CHAPTERS = "rb_workers/src/chapter_sizes.rt"
SNAPSHOT = "rb_chapter_ring/src/snapshot.rt"
LAW_OF_CHAPTERS = "rb_workers/specs/ChapterSizes.antt"
LOOKS = (SIZES_OF_CHAPTERS, "(size / #).max(#).min(#)")
MOST_ROOM = (SIZES_OF_CHAPTERS, "MOST: u64 = #")
BUFFER = ("rb_io/src/buffered.rt", "CAPACITY: usize = #")
FRESH_SIZE, FRESH_ROOM = [
    ("rb_run_commands/src/fresh_rings.rt", text) for text in ("RING_SIZE: u64 = #", "ROOM: u32 = #")
]
FED_ROOM = ("rb_tape_commands/src/feed_command.rt", "ROOM: u32 = #")
AHEAD = ("rb_io/src/ahead.rt", "CAPACITY: usize = #")
PIECE = ("rb_tape_commands/src/tape_command.rt", "PIECE: usize = #")
EXACT = ("rb_json/src/words.rt", "EXACT: u64 = 1 << #")
SHOWN, SHOWN_BYTES = [("rb_explain/src/windows.rt", text) for text in ("NEAR: u32 = #", "RAW: u32 = #")]
NEAR = ("rb_verifier/src/arithmetic.rt", "NEAR: i64 = 1 << #")
FAR = ("rb_portable/src/classes.rt", "FAR: i128 = 1 << #")
HELPERS = [
    ("rb_interp/src/numbers.rt", f"{name}: u32 = #") for name in ("OUTPUT", "RESERVE", "SUBMIT", "DISCARD", "QUERY")
]
STACK = ("rb_interp/src/stack.rt", "Block<#>")
PLACES = ("rb_interp/src/kept_pointers.rt", "ArrayVec<KeptPointer, #>")
SCRIPTS = [
    ("rb_script/src/script.rt", text) for text in ("self.rings.len() >= #", "self.workers.len() >= #", "TURNS: u64 = #")
]
SCRIPT_ROOM = ("rb_script/src/script_line.rt", "ROOM: u64 = #")
RETRIES, CONTEXTS, RINGS, JOBS, BEHIND = [
    ("rb_command_line/src/request.rt", f'"{name}", #, #)') for name in ("retry", "ctx", "rings", "jobs", "behind")
]
TOLD_JOBS = ("rb_command_line/src/taped_jobs.rt", "JOBS: u64 = #")
BENCH = "rb_trials/src/bench"

# Numbers that one crate copies, since they are private to the other.
COPIES = [(SHORT, ("rb_jobs/src/stock.rt", "SHORT: u32 = #"))]

STATED: list[tuple[str, str, Sequence[Source]]] = [
    ("README.md", "for any number of workers (# to #)", [WORKERS]),
    ("DECISIONS.md", "Positions end at 2^#, so that no sum wraps.", [LIMIT]),
    (
        "DECISIONS.md",
        "Sizes are powers of two from # to #, starts multiples of # up to 2^#, workers # to #.",
        [SIZES, STARTS, WORKERS],
    ),
    ("DECISIONS.md", "workers may each be refused 2^# times", [LIMIT]),
    ("DECISIONS.md", "# for each worker, as many references", [HANDS]),
    ("DECISIONS.md", "to # units is an invariant of its type", [UNITS]),
    ("DECISIONS.md", "There are # forms", [forms]),
    ("DECISIONS.md", "Anywhere from -2^# to 2^#", [NEAR, NEAR]),
    ("DECISIONS.md", "The bytes of a record of at most # stay in their slot", [SHORT]),
    ("DECISIONS.md", "Up to # in the sheet, more on the heap", [SHORT]),
    ("DECISIONS.md", "they retry, # calls in all", [TRIES]),
    ("DECISIONS.md", "if its chapter was full at each of # calls", [TRIES]),
    ("DECISIONS.md", "**How many records in a batch?** #, under one acquisition of the lock", [BATCH]),
    ("DECISIONS.md", "one queue of # places", [BATCH]),
    (
        "DECISIONS.md",
        "as many records as are a #th of the ring's bytes (# to #), or a #nd of a small chapter's room",
        [LOOKS, PART_OF_ROOM],
    ),
    (
        "DECISIONS.md",
        "# entries for each record that the ring can have at once",
        [(LAW_OF_CHAPTERS, "size / 8 * # + look_after size")],
    ),
    ("DECISIONS.md", "and for each between two looks, # for refusals", [(SIZES_OF_CHAPTERS, "BETWEEN_LOOKS: u64 = #")]),
    (
        "DECISIONS.md",
        "an eighth of the ring's bytes, # to #. At most # in all",
        [(SIZES_OF_CHAPTERS, "(size / 8).max(#).min(#)"), MOST_ROOM],
    ),
    (
        "DECISIONS.md",
        "if at least # records of the list were taken, and at most half as many and at most # are left",
        [(SNAPSHOT, "LEAST_TAKEN: usize = #"), (SNAPSHOT, "MOST_MOVED: usize = #")],
    ),
    ("DECISIONS.md", "A ring with chapters of # entries and a spare one", [FED_ROOM]),
    ("DECISIONS.md", "*Costs:* one more write for each # bytes of input", [AHEAD]),
    ("DECISIONS.md", "It reads up to # bytes at once and hands a `Feed` at most # of them", [AHEAD, PIECE]),
    ("DECISIONS.md", "Fresh rings of # bytes whose chapters have room for # entries", [FRESH_SIZE, FRESH_ROOM]),
    ("DECISIONS.md", "those of all each #th time", [TOLD_JOBS]),
    ("DECISIONS.md", "Above 2^# a string", [EXACT]),
    (
        "DECISIONS.md",
        "# units before it and # after it. If the bytes are not a program, # units' bytes",
        [SHOWN, SHOWN, SHOWN_BYTES],
    ),
    ("PROOF_STATUS.md", "a new one of at most # bytes is never refused", [SHORT]),
    ("PROOF_STATUS.md", "a worker has at most # busy records", [HANDS]),
    ("PROOF_STATUS.md", "to # units, and the instruction that begins at each", [UNITS]),
    ("PROOF_STATUS.md", "one of # classes", [classes]),
    ("PROOF_STATUS.md", "shows # runs that were worked out by hand", [worked_runs]),
    ("PROOF_STATUS.md", "# rings, # workers, # turns at most", SCRIPTS),
    ("PROOF_STATUS.md", "its chapter full at each of # calls", [TRIES]),
    ("PROOF_STATUS.md", "at most # failures are unlogged", [("rb_jobs/src/job_run.rt", "answer.unlogged ≤ #")]),
    ("PROOF_STATUS.md", "at #, #, #, # and # MiB for records of at least #, #, #, # and # bytes", [least_lengths]),
    ("PROOF_STATUS.md", "and at most # refusals", [(LAW_OF_CHAPTERS, "refusals_between_looks = #")]),
    ("ARCHITECTURE.md", "a `Batch` of # places", [BATCH]),
    ("ARCHITECTURE.md", "through a queue of # places", [BATCH]),
    ("ARCHITECTURE.md", "the longest, from `rb_insn` to `rbhost`, has # crates", [longest_chain]),
    ("PERFORMANCE.md", "through buffers of # bytes", [BUFFER]),
    ("PERFORMANCE.md", "# bytes of stack and the registers", [STACK]),
    (
        "PERFORMANCE.md",
        "Shared rings keep chapters of # entries and take batches of #",
        [(f"{BENCH}/one_thread.rt", "const ROOM: u32 = #"), (f"{BENCH}/threads.rt", "BATCH: usize = #")],
    ),
    (
        "PERFORMANCE.md",
        "the ring of one thread keeps chapters of #",
        [(f"{BENCH}/one_thread.rt", "COURSE_ROOM: u32 = #")],
    ),
    ("READ_THE_THEOREM.md", "are some # lines", [trusted_lines]),
    ("SCALE.md", "| #.# to #.# million records a second |", [lambda: medians("shared ring, [24] to 1")]),
    (
        "SCALE.md",
        "| #.# to #.# million a second; `rbhost run` #.# to #.# |",
        [lambda: medians("whole jobs"), lambda: medians("rbhost run")],
    ),
    ("LINUX.md", "its rules # sentences", [rules]),
    ("LINUX.md", "The # objects of examples/c", [programs_in_c]),
    ("LINUX.md", "programs of up to # units", [UNITS]),
    ("LINUX.md", "by less than 2^#, to an offset below that. Here the bound is 2^#", [FAR, NEAR]),
    ("LINUX.md", "a reservation above # bytes, which no ring here grants", [(BOUNDS, "size > #")]),
    ("LINUX.md", "a context of # bytes", [("rb_loader/src/program.rt", "ctx_len ≤ #")]),
    ("GLOSSARY.md", "capacity in entries, # to #", [("rb_chapter_ring/specs/Chapters.antt", "# ≤ room"), MOST_ROOM]),
    ("GLOSSARY.md", "One of the # slots of a worker", [HANDS]),
    ("GLOSSARY.md", "Up to # bytes are stored inline", [SHORT]),
    ("TUTORIAL.md", "to # units of eight bytes", [UNITS]),
    (
        "TUTORIAL.md",
        "`bpf_ringbuf_output` (#), `_reserve` (#), `_submit` (#), `_discard` (#) and `_query` (#)",
        HELPERS,
    ),
    ("TUTORIAL.md", "a reservation has at most # bytes", [(BOUNDS, "size > #")]),
    ("TUTORIAL.md", "# bytes. Each of its # slots of eight bytes may hold a pointer", [STACK, PLACES]),
    ("TUTORIAL.md", "at most # in flight at once", [HANDS]),
    ("rbhost.1", "a power of two from # to #.", [SIZES]),
    ("rbhost.1", "whose chapters have room for # entries unless given", [SCRIPT_ROOM]),
    ("rbhost.1", "there are # turns at most", SCRIPTS[2:]),
    ("rbhost.1", "in the whole run, # to #;", [RETRIES]),
    ("rbhost.1", "The length of the context in bytes, # to #;", [CONTEXTS]),
    ("rbhost.1", "How many rings the program knows, # to #;", [RINGS]),
    ("rbhost.1", "How many workers there are, # to #.", [WORKERS]),
    ("rbhost.1", "the consumer may be behind, # to #.", [BEHIND]),
    ("rbhost.1", "How often each worker runs the program, # to #.", [JOBS]),
]


def numbers_of(sources: Sequence[Source]) -> list[int]:
    """Returns the numbers that these places have; it is a LookupError if one of them is gone."""
    return [number for source in sources for number in (source() if callable(source) else first(*source))]


def compared() -> Iterator[str]:
    """Yields the statements of the documents that differ from the code."""
    for document, sought, sources in STATED:
        try:
            wanted, found = numbers_of(sources), matches(text_of(document), sought)
        except LookupError as gone:
            yield f"{document}: {sought}: {gone.args[0]}"
            continue
        if not found:
            yield f"{document} does not say: {sought}"
        for numbers in found:
            if numbers != wanted:
                yield f"{document} has {numbers}, and the code {wanted}: {sought}"


def copied() -> Iterator[str]:
    """Yields the copies of a number that differ from it."""
    for origin, copy in COPIES:
        if first(*origin) != first(*copy):
            yield f"{copy[0]} has {first(*copy)}, and {origin[0]} {first(*origin)}: {copy[1]}"
