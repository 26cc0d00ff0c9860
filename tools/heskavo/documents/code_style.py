"""The style of the code, as far as `rt` does not check it, and the kit that it needs."""
import collections
import re
import subprocess
from collections.abc import Iterator

from heskavo.documents.numbers import text_of
from heskavo.repository import ROOT

TYPE = r"(?m)^ *(?:pub(?:\(\w+\))? )?(?:struct|enum|trait) (\w+)"
LATE_ATTRIBUTE = r"(?m)^ *///.*\n(?: *#\[.*\n)+ *(?:pub(?:\(\w+\))? )?(?:const |unsafe |extern \"C\" )*fn (\w+)"


def styled() -> Iterator[str]:
    """Yields types that share a name, and functions whose attributes are below their doc comments."""
    places = collections.defaultdict(list)
    for path in sorted(ROOT.glob("crates/*/src/**/*.rt")):
        name, text = path.relative_to(ROOT), path.read_text()
        for word in re.findall(TYPE, text):
            places[word].append(str(name))
        yield from (
            f"{name} has attributes of {function} below its doc comment"
            for function in re.findall(LATE_ATTRIBUTE, text)
        )
    yield from (f"types share the name {word}: {', '.join(files)}" for word, files in places.items() if len(files) > 1)


def logic() -> Iterator[str]:
    """Yields a difference if README.md does not require the kit's logic."""
    kit = subprocess.run(["rt", "version"], capture_output=True, text=True).stdout.split()[-1]
    if f"`logic {kit}`" not in text_of("README.md"):
        yield f"README.md does not require the kit's logic, {kit}"
