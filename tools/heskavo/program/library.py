"""The library for C, as libheskavo.a: the object of crates/heskavo_c, and the three calls of malloc, realloc and free that the kit's allocator makes."""
import pathlib
import shutil
import subprocess
import sys

from heskavo.program import builds, kit
from heskavo.repository import CRATES

NAME = "libheskavo.a"


def build(folder: pathlib.Path, is_proved: bool) -> pathlib.Path:
    """Builds the library in a folder, and returns its path. It is proved first, except what was proved before; or built without proof, from the same sources."""
    library = folder.resolve() / NAME
    if is_proved:
        crate = CRATES / "heskavo_c"
        subprocess.run(["rt", "lib"], cwd=crate, check=True, stdin=subprocess.DEVNULL, stdout=sys.stderr)
        kit.archive(crate / "out" / "libheskavo_c.a", library)
    else:
        shutil.copy(builds.unproved("heskavo_c"), library)
    return library
