"""A part of the gate: a command whose output is passed through, and how much of it passed and failed."""
import dataclasses
import re
import subprocess
import threading
import time
from collections.abc import Sequence
from pathlib import Path

from heskavo.gate.times import Times
from heskavo.gate.watch import Watch, keep
from heskavo.repository import ROOT

PAUSE = 0.2
VERDICT = re.compile(r"(\d+) passed, (\d+) failed")


@dataclasses.dataclass
class Result:
    """How a part ended: what passed and failed, by its last line 'N passed, M failed', and its time by the clock.

    A part without such a line counts as one, by its status. A part with a status other than 0 has failed.
    """

    passed: int
    failed: int
    clock: float

    @classmethod
    def of(cls, status: int, verdict: re.Match[str] | None, clock: float) -> "Result":
        """Returns the result of a part with this status and this last line."""
        passed, failed = (int(verdict[1]), int(verdict[2])) if verdict else (int(status == 0), int(status != 0))
        return cls(passed, max(failed, int(status != 0)), clock)


def run(words: Sequence[str], times: Times | None = None, kept: Path | None = None) -> Result:
    """Runs a part at the top of the repository.

    With `times` the processor times of its checks are measured, and with `kept` what each crate's edits start from is
    kept there.
    """
    print(f"== {' '.join(words)}", flush=True)
    began = time.monotonic()
    verdicts: list[re.Match[str]] = []

    def pass_on(output: "subprocess.Popen[str]") -> None:
        for line in output.stdout or ():
            print(line, end="", flush=True)
            if found := VERDICT.fullmatch(line.rstrip("\n")):
                verdicts.append(found)
            if times:
                times.read(line.rstrip("\n"))

    process = subprocess.Popen(
        words, cwd=ROOT, stdout=subprocess.PIPE, stderr=subprocess.STDOUT, text=True, errors="replace"
    )
    reader = threading.Thread(target=pass_on, args=[process])
    reader.start()
    watch = Watch(process.pid)
    while times:
        is_over = process.poll() is not None
        for work, seconds in watch.look():
            times.add(work, seconds)
            if kept:
                keep(work, kept)
        if is_over:
            break
        time.sleep(PAUSE)
    status = process.wait()
    reader.join()
    return Result.of(status, verdicts[-1] if verdicts else None, time.monotonic() - began)
