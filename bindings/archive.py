"""The archive of the library, on which `bindings/run` and `bindings/pack` build."""
import os
import shutil
import subprocess
import sys
from pathlib import Path

CRATE = Path(__file__).resolve().parents[1] / "crates/lovendak_c"


def archive():
    """The archive that `LOVENDAK_LIB` names, or else the one that `rt lib` makes, which proves it; and whether it was made so."""
    named = os.environ.get("LOVENDAK_LIB")
    if named and not os.path.isfile(named):
        sys.exit(f"LOVENDAK_LIB has to name the library's archive, and {named} is not there")
    if named:
        return Path(named).absolute(), False
    if not shutil.which("rt"):
        sys.exit("The library's archive is wanted: LOVENDAK_LIB names one, or the Rattle kit, whose rt has to be in PATH, makes one")
    subprocess.run(["rt", "lib"], cwd=CRATE, check=True)
    return CRATE / "out/liblovendak_c.a", True
