"""Compares the answers of both hosts to random scripts, and counts each class of difference."""
import collections
import dataclasses
import sys
import time

from heskavo.linux import drawn_jobs, heskavo_host, named_programs, portable
from heskavo.linux.ring_runs import Ring, RingRun
from heskavo.rows.program_checks import verified

BATCH = 100
SHOWN = 10
LOW_32 = (1 << 32) - 1
# In rings up to this size the bytes between the positions are read as a tape.
TAPED = 65_536
PAGE = 4096
PAGES_BEFORE_DATA = 3


@dataclasses.dataclass
class Told:
    """A host's report of a script's run: for each step the result, which rings woke their reader, and what was taken from each ring; at the end
    the positions of each ring, and whether a program read bytes of a pointer that it had partly overwritten."""

    results: list = dataclasses.field(default_factory=list)
    woken: list = dataclasses.field(default_factory=list)
    taken: list = dataclasses.field(default_factory=list)
    ends: list = dataclasses.field(default_factory=list)
    reads_pointer: bool = False


def of_model(script):
    """Returns the model's report of a script, and the number of takes of each ring in each step, including one of an empty ring if more are requested."""
    rings, told, counts = [Ring(size) for size in script.sizes], Told(), []
    insns = [verified(code, script.context, len(rings)) for code in script.programs]
    for step in script.steps:
        run = RingRun(insns[step.program], step.context, rings)
        told.results.append(run.result())
        told.reads_pointer = told.reads_pointer or run.reads_pointer
        told.woken.append([number for number, ring in enumerate(rings) if ring.due])
        counts.append([min(count, len(ring.records) + 1) for count, ring in zip(step.takes, rings)])
        told.taken.append(
            [
                [
                    (position, length, None if discarded else data)
                    for position, length, data, discarded in ring.take(count)
                ]
                for count, ring in zip(step.takes, rings)
            ]
        )
        for ring in rings:
            ring.due = False
    told.ends = [(ring.consumer, ring.producer) for ring in rings]
    return told, counts


def linux_lines(script):
    """Returns the lines that make the host over Linux run a script."""
    lines = [f"ring {size}" for size in script.sizes] + [f"program {code.hex()}" for code in script.programs]
    for step in script.steps:
        lines += [f"run {step.program} {step.context.hex() or '-'}", "woken"]
        for ring, count in enumerate(step.takes):
            lines += [f"bytes {ring}"] if script.sizes[ring] <= TAPED else []
            lines += [f"take {ring} {count}"] if count else []
    return [*lines, *[f"positions {ring}" for ring in range(len(script.sizes))], "end"]


def of_linux(script, answers):
    """Returns Linux's report of a script, with each piece of a ring's bytes: the ring's size, its position, and its bytes."""
    told, pieces = Told(), []
    for _ in [*script.sizes, *script.programs]:
        next(answers)
    consumers = [0] * len(script.sizes)
    for step in script.steps:
        told.results.append(next(answers).removeprefix("result "))
        told.woken.append([int(word) for word in next(answers).split()[1:]])
        told.taken.append([])
        for ring, count in enumerate(step.takes):
            if script.sizes[ring] <= TAPED:
                pieces.append((script.sizes[ring], consumers[ring], bytes.fromhex(next(answers).split()[1].strip("-"))))
            told.taken[-1].append(list(taken_lines(answers)) if count else [])
            for position, length, _, _ in told.taken[-1][-1]:
                consumers[ring] = position + 8 + (length + 7) // 8 * 8
    told.ends = [tuple(map(int, next(answers).split()[1:])) for _ in script.sizes]
    next(answers)
    return told, pieces


def taken_lines(answers):
    """Returns the records of a take on Linux: position, length, bytes or None, and the page."""
    for line in answers:
        words = line.split()
        if words[0] == "taken":
            return
        yield int(words[1]), *heskavo_host.record_of(words), int(words[5])


def tape_of(data):
    """Returns the tape of a ring's bytes: pages counted from the first data page, zeros as padding and for discarded records."""
    tape, at = b"", 0
    while at < len(data):
        word, page = int.from_bytes(data[at : at + 4], "little"), int.from_bytes(data[at + 4 : at + 8], "little")
        length, is_discarded = word & ~(1 << 30), bool(word & 1 << 30)
        payload = bytes(length) if is_discarded else data[at + 8 : at + 8 + length]
        tape += data[at : at + 4] + (page - PAGES_BEFORE_DATA).to_bytes(4, "little") + payload + bytes(-length % 8)
        at += 8 + length + -length % 8
    return tape


def is_same_record(first, second) -> bool:
    """Returns whether two records are equal: position, length, and the bytes that a program has written."""
    if first[:2] != second[:2] or (first[2] is None) != (second[2] is None):
        return False
    if first[2] is None or first[1] <= drawn_jobs.WHOLE:
        return first[2] == second[2]
    return all(
        first[2][at : at + 8] == second[2][at : at + 8] for at in drawn_jobs.written_places(first[1]) if at < 1 << 15
    )


def is_same_taken(first, second) -> bool:
    return all(
        len(a) == len(b) and all(map(is_same_record, a, b))
        for one, other in zip(first, second)
        for a, b in zip(one, other)
    )


class Comparison:
    """The counts of what was compared, and the differences."""

    def __init__(self, linux, heskavo) -> None:
        self.linux, self.heskavo = linux, heskavo
        self.counts, self.classes, self.unexplained = collections.Counter(), collections.Counter(), 0

    def differ(self, number: int, text: str) -> None:
        self.unexplained += 1
        if self.unexplained <= SHOWN:
            print(f"script {number}: {text}" if isinstance(number, int) else f"{number}: {text}")

    def verdicts(self, first, scripts):
        """Returns, for each script, whether both hosts accept all its programs; counts differences by their classes."""
        programs = [(code, script.context, len(script.sizes)) for script in scripts for code in script.programs]
        here = iter(self.heskavo.verdicts(programs))
        lines = [
            line
            for script in scripts
            for line in [
                *[f"ring {size}" for size in script.sizes],
                *[f"program {code.hex()}" for code in script.programs],
                "end",
            ]
        ]
        there = iter(self.linux.answers(lines))
        accepted = []
        for number, script in enumerate(scripts, first):
            for _ in script.sizes:
                next(there)
            both = [
                self.verdict(number, (code, script.context, len(script.sizes)), next(here), next(there))
                for code in script.programs
            ]
            next(there)
            accepted.append(all(both))
        return accepted

    def named(self) -> None:
        """Compares the named program of each class: the named side must refuse it by this class, and the other must accept it."""
        named = list(named_programs.programs())
        here = self.heskavo.verdicts([(code, named_programs.CONTEXT, named_programs.RINGS) for _, _, code in named])
        there = self.linux.answers(
            [*["ring 4096"] * named_programs.RINGS, *[f"program {code.hex()}" for _, _, code in named]]
        )[named_programs.RINGS :]
        for (side, name, code), ours, theirs in zip(named, here, there):
            self.counts["named programs"] += 1
            told = " ".join(ours[-1].split()[1:3]) if ours[0] != "accepted" else ""
            classes = [found for found, _ in heskavo_host.classes_told(ours)]
            wanted = (name, [], True) if side == "here" else ("", [name] if side == "linux" else [], False)
            if (told, classes, theirs.startswith("program ")) != wanted:
                self.differ(f"the program of {side} {name}", f"{ours[-1]} and {theirs}")

    def verdict(self, number: int, program, here, there):
        """Compares both verdicts on a program, and returns whether both accept it."""
        is_here, is_there = here[0] == "accepted", there.startswith("program ")
        self.counts["programs"] += 1
        if not is_here:
            self.counts["refused by both" if not is_there else "refused here alone"] += 1
            if is_there:
                self.refused_here(number, program, here[-1])
            return False
        told = heskavo_host.classes_told(here)
        if told != portable.lines(*program):
            self.differ(
                number,
                f"{told} told, and {portable.lines(*program)} by the model\n  {program[0].hex()} context {program[1]} rings {program[2]}",
            )
        self.counts["accepted by both" if is_there else "refused only by Linux"] += 1
        self.counts["with a class" if told else "without a class"] += 1
        for name in {name for name, _ in told}:
            self.classes[f"linux {name}"] += 1
        if is_there and told and not self.is_seen(program, [unit for _, unit in told]):
            self.classes["linux does not check the units with a class"] += 1
        elif is_there != (not told):
            self.differ(
                number,
                f"{' '.join(f'{name} {unit}' for name, unit in told) or 'no class'}, and Linux: {there}\n  {program[0].hex()} context {program[1]} rings {program[2]}",
            )
        elif not is_there and there.split()[2] not in ["-", *(str(unit) for _, unit in told)]:
            self.differ(number, f"{told}, and Linux at a different unit: {there}\n  {program[0].hex()}")
        return is_there

    def refused_here(self, number: int, program, line: str) -> None:
        """Counts the class of a program that Linux accepts and this host refuses by a line such as `refused verify V13 unit 4`."""
        _, layer, kind, _, unit = line.split()
        if layer != "shape" and kind != "TooLong" and not self.is_seen(program, [int(unit)]):
            self.classes["here a unit that Linux does not check"] += 1
        elif f"{layer} {kind}" in portable.HERE_ALONE and (kind != "V4" or self.is_context_short(program)):
            self.classes[f"here {layer} {kind}"] += 1
        else:
            self.differ(
                number, f"{line}, and Linux accepts it\n  {program[0].hex()} context {program[1]} rings {program[2]}"
            )

    def is_seen(self, program, units) -> bool:
        """Returns whether Linux checks one of these units of a program that it accepts."""
        code, _, rings = program
        seen = self.linux.answers([*["ring 4096"] * rings, f"seen {code.hex()}"])[-1].split()
        return seen[0] != "seen" or any(str(unit) in seen[1:] for unit in units)

    def is_context_short(self, program) -> bool:
        """Returns whether Linux checks at run time that the context of a program is long enough, and finds that it is not."""
        code, context, rings = program
        lines = [*["ring 4096"] * rings, f"program {code.hex()}", f"run 0 {bytes(context).hex() or '-'}"]
        return self.linux.answers(lines)[-1] == "refused EINVAL"

    def runs(self, first, scripts, accepted) -> None:
        """Compares the runs of the scripts whose programs both accept."""
        chosen = [
            (number, script, *of_model(script))
            for number, (script, both) in enumerate(zip(scripts, accepted), first)
            if both
        ]
        answers = self.heskavo.answers([heskavo_host.sim_command(script, counts) for _, script, _, counts in chosen])
        linux = iter(self.linux.answers([line for _, script, _, _ in chosen for line in linux_lines(script)]))
        tapes = []
        for (number, script, model, counts), answer in zip(chosen, answers):
            there, pieces = of_linux(script, linux)
            self.run(number, script, model, heskavo_host.sim_told(answer, script, counts), there)
            tapes += [(number, piece) for piece in pieces if piece[2]]
        self.tapes(tapes)

    def run(self, number: int, script, model, here, there):
        """Compares the reports of the model, this host and Linux about a run."""
        self.counts["scripts run"] += 1
        self.counts["runs"] += len(script.steps)
        self.counts["takes"] += sum(len(each) for step in there.taken for each in step)
        self.counts["wake-ups"] += sum(map(len, there.woken))
        if here is None:
            return self.differ(number, "this host did not run it")
        found, results, ends = here
        wanted = [str(result & LOW_32) for result in results]
        for name, ours, other in (
            ("result here", model.results, results),
            ("result", wanted, there.results),
            ("woken", model.woken, there.woken),
            ("positions here", model.ends, ends),
            ("positions", ends, there.ends),
        ):
            if ours != other and model.reads_pointer and "here" not in name:
                self.classes["value of a pointer's bytes"] += 1
                return None
            if ours != other:
                return self.differ(number, f"{name}: {ours} and {other}")
        if not is_same_taken(found, model.taken):
            return self.differ(number, f"records here and of the model: {found} and {model.taken}")
        if not is_same_taken(found, there.taken) and model.reads_pointer:
            self.classes["value of a pointer's bytes"] += 1
        elif not is_same_taken(found, there.taken):
            return self.differ(number, f"records: {found} and {there.taken}")
        for record, size in (
            (record, size) for step in there.taken for each, size in zip(step, script.sizes) for record in each
        ):
            if record[3] != record[0] % size // PAGE + PAGES_BEFORE_DATA:
                return self.differ(number, f"page of {record}")
        return None

    def tapes(self, tapes) -> None:
        """Lets this host read the bytes of Linux's rings as tapes, and compares the records."""
        commands = [heskavo_host.tape_command(size, start, tape_of(data)) for _, (size, start, data) in tapes]
        for (number, (_, start, data)), answer in zip(tapes, self.heskavo.answers(commands)):
            self.counts["tapes"] += 1
            wanted = list(records_of(start, data))
            found = [
                (int(words[1]), *heskavo_host.record_of(words))
                for words in (line.split() for line in answer)
                if words[0] == "pos"
            ]
            if wanted != found or len(found) != len(answer):
                self.differ(number, f"tape: {wanted} and {answer}")

    def told(self):
        """Prints the counts, and returns 1 if a difference has no class."""
        print(", ".join(f"{name} {count}" for name, count in sorted(self.counts.items())))
        print(", ".join(f"{name} {count}" for name, count in sorted(self.classes.items())) or "no classes")
        print(f"differences without a class {self.unexplained}")
        return 1 if self.unexplained else 0


def records_of(position: int, data):
    """Returns the records of a ring's bytes from a position on."""
    at = 0
    while at < len(data):
        word = int.from_bytes(data[at : at + 4], "little")
        length = word & ~(1 << 30)
        yield position + at, length, None if word & 1 << 30 else data[at + 8 : at + 8 + length]
        at += 8 + length + -length % 8


def compare(linux, heskavo, count: int, seed: int):
    """Generates this many random scripts and compares them."""
    comparison, began = Comparison(linux, heskavo), time.monotonic()
    comparison.named()
    for begin in range(0, count, BATCH):
        scripts = [drawn_jobs.drawn_script(seed, number) for number in range(begin, min(begin + BATCH, count))]
        comparison.runs(begin, scripts, comparison.verdicts(begin, scripts))
        print(
            f"{begin + len(scripts)} of {count} scripts compared, {time.monotonic() - began:.0f} s",
            file=sys.stderr,
            flush=True,
        )
    return comparison.told()
