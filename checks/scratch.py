"""A copy of the repository in a scratch folder, for the checks that measure it or change it."""
import contextlib
import os
import shutil
import subprocess
import sys
import tempfile

TOP = os.path.dirname(os.path.dirname(os.path.abspath(__file__)))


def listed():
    """What crates.txt says: each crate, behind those below it, with the libraries that it uses."""
    with open(os.path.join(TOP, "crates.txt"), encoding="utf-8") as file:
        lines = [line.partition(":") for line in file if line.strip() and not line.startswith("#")]
    return {name.strip(): used.split() for name, _, used in lines}


def crates():
    """The crates' names, each behind those below it."""
    return [*listed()]


def below(names):
    """The repository's crates below these, each behind those below it."""
    uses, found = listed(), {*names}
    while more := {it for name in found for it in uses[name] if it in uses} - found:
        found |= more
    return [name for name in uses if name in found and any(name in uses[it] for it in found)]


def chosen(names):
    """The named crates in their order, or all of them."""
    unknown = sorted({*names} - {*crates()})
    if unknown:
        sys.exit(f"{os.path.basename(sys.argv[0])}: crates.txt names no {', '.join(unknown)}")
    return [name for name in crates() if not names or name in names]


def copy_sources(room):
    """Copies what git tracks, and what is new and not ignored, as it stands."""
    listed = subprocess.run(["git", "ls-files", "-z", "-co", "--exclude-standard"], cwd=TOP, capture_output=True, check=True)
    for name in filter(None, listed.stdout.decode().split("\0")):
        if os.path.isfile(os.path.join(TOP, name)):
            os.makedirs(os.path.dirname(os.path.join(room, name)), exist_ok=True)
            shutil.copy2(os.path.join(TOP, name), os.path.join(room, name))


def copy_libraries(room, names):
    """Copies the proved libraries that earlier checks left. `rt` proves one anew where its sources are others."""
    for name in names:
        built = os.path.join("crates", name, "out", "rlib")
        if os.path.isdir(os.path.join(TOP, built)):
            shutil.copytree(os.path.join(TOP, built), os.path.join(room, built), dirs_exist_ok=True)


@contextlib.contextmanager
def copied(libraries, room=None):
    """A copy with the libraries of these crates. A given folder stays, any other is removed at the end."""
    made = room or tempfile.mkdtemp(prefix="hevlicar-")
    try:
        os.makedirs(made, exist_ok=True)
        copy_sources(made)
        copy_libraries(made, libraries)
        yield made
    finally:
        if not room:
            shutil.rmtree(made, ignore_errors=True)


def prove_below(room, names):
    """Has each library below these crates proved in the copy, where what was copied does not serve."""
    for name in below(names):
        ran = subprocess.run(["rt", "lib"], cwd=os.path.join(room, "crates", name), stdin=subprocess.DEVNULL, capture_output=True)
        if ran.returncode:
            sys.exit(f"{os.path.basename(sys.argv[0])}: the library {name} is not proved:\n{ran.stdout.decode(errors='replace')[-2000:]}")
