"""Where the built program is."""
import os
import shutil
from pathlib import Path

BUILT = Path(__file__).resolve().parents[2] / "crates/dnr/out/dnr"


class Missing(Exception):
    """There is no built program; the text says where one was looked for."""


def program():
    """The path of the built program.

    The variable DNR_PROGRAM names it; without that it is the one that was built in this repository, or else `dnr` on the
    path. Raises `Missing` where none of these can be run.
    """
    named = os.environ.get("DNR_PROGRAM")
    if named:
        if os.access(named, os.X_OK) and not os.path.isdir(named):
            return os.path.abspath(named)
        raise Missing(f"DNR_PROGRAM names {named}, which is no program")
    if os.access(BUILT, os.X_OK):
        return str(BUILT)
    found = shutil.which("dnr")
    if found:
        return found
    raise Missing(f"no built program: set DNR_PROGRAM, build one with {BUILT.parents[3] / 'build'}, or put dnr on the path")
