"""Runs tests that are plain functions without pytest: those of the gate. Started as a script, with the names of files in tools/tests."""
import importlib
import sys
import traceback
import unittest
from pathlib import Path

TOOLS = Path(__file__).resolve().parents[2]


def run(name: str) -> tuple[int, int]:
    """Runs the tests of a file, prints what failed, and returns how many passed and failed."""
    passed = failed = 0
    try:
        module = importlib.import_module(name.removesuffix(".py"))
    except ImportError as error:
        print(f"{name}: {error}")
        return 0, 1
    for word, test in vars(module).items():
        if word.startswith("test_"):
            try:
                test()
                passed += 1
            except unittest.SkipTest as skipped:
                print(f"{name} {word}: skipped: {skipped}")
            except Exception:
                print(f"{name} {word}:\n{traceback.format_exc()}")
                failed += 1
    return passed, failed


if __name__ == "__main__":
    sys.path[:0] = [str(TOOLS), str(TOOLS / "tests")]
    # A file that uses pytest fails here, even if this Python has it.
    sys.modules["pytest"] = None  # type: ignore[assignment]
    print("there is no pytest, which Debian has in the package python3-pytest: the tests are run without it")
    results = [run(name) for name in sys.argv[1:]]
    print(f"{sum(it[0] for it in results)} passed, {sum(it[1] for it in results)} failed")
    sys.exit(1 if any(it[1] for it in results) else 0)
