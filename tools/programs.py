"""The program that is proved and the one that isn't, and by what each is known to be made of the sources that are here.

Beside each lies a stamp, with the toolchain's logic, a sum over the sources, and one over the program itself. Where one of them differs, the
program counts as missing.
"""
import hashlib
import os
import re
import shutil
import signal
import subprocess
import sys
import tempfile
from pathlib import Path

ROOT = Path(__file__).resolve().parent.parent
# The program: `./signoff` where nothing else is said.
NAME = os.environ.get("SIGNOFF_PROGRAM", "signoff")
OUT = ROOT / "crates" / NAME / "out"
UNPROVED = OUT / "unproved" / NAME
# What `tools/listed` printed when a program was last chosen, below a line that says which.
KEPT = OUT / "start"
PARTS = ("src", "specs", "proofs")
ENDS = (".rt", ".antt")


def proved(name=NAME):
    """Returns where the proved program is put."""
    return ROOT / "crates" / name / "out" / name


def all_of_them():
    """Returns the names of the programs that a launcher at the top starts, `signoff` first."""
    found = sorted(it.parent.parent.name for it in ROOT.glob("crates/*/src/main.rt"))
    return sorted((it for it in found if (ROOT / it).is_file()), key=lambda it: it != "signoff")


def hand_on(text):
    """Prints on standard error, and on nothing else where that is closed."""
    if sys.stderr is not None:
        print(text, end="", file=sys.stderr, flush=True)


def tell(text):
    hand_on(f"{NAME}: {text}\n")


def crates(program=NAME):
    """Returns the program's crate and those below it, each with its words of crates.txt."""
    rows = [it.partition("#")[0].partition(":") for it in (ROOT / "crates.txt").read_text().splitlines()]
    said = {head.split()[0]: (head.split()[1:], uses.replace(",", " ").split()) for head, _, uses in rows if head.strip()}
    found, ahead = {}, [program]
    while ahead:
        name = ahead.pop()
        if name in said and name not in found:
            found[name] = said[name]
            ahead += said[name][1]
    return found


def sum_of(file):
    return hashlib.sha256(file.read_bytes()).hexdigest()


def files_of(name):
    """Returns the sources of a crate, sorted."""
    found = []
    for part in PARTS:
        for folder, _, names in os.walk(ROOT / "crates" / name / part, followlinks=True):
            found += [Path(folder, it) for it in names if it.endswith(ENDS)]
    return sorted(it for it in found if it.is_file())


def look_at(name):
    """Returns what tells that none of a crate's sources changed, not even to another text and back."""
    return [(it, it.stat().st_size, it.stat().st_mtime_ns, it.stat().st_ctime_ns) for it in files_of(name)]


def sum_of_sources(program=NAME):
    """Returns a sum over all that the program is made of: times of files say nothing here."""
    total = hashlib.sha256()
    for name, said in sorted(crates(program).items()):
        sums = [(str(it.relative_to(ROOT)), sum_of(it)) for it in files_of(name)]
        total.update(repr((name, said, sums)).encode())
    return total.hexdigest()


def logic():
    """Returns the logic of the toolchain on the path, which is what a proof stands on, or None where there is no toolchain."""
    try:
        said = subprocess.run(["rt", "version"], stdin=subprocess.DEVNULL, capture_output=True, text=True)
    except OSError:
        return None
    found = re.search(r"\blogic (\w+)", said.stdout)
    return found[1] if found else said.stdout.strip() or None


def stamp_of(program):
    return program.with_name(f"{program.name}.stamp")


def is_of(program, sources, known_logic):
    """Returns whether a program is there that was made of these sources; without a toolchain nothing tells its logic from another."""
    try:
        said = dict(it.split(" ", 1) for it in stamp_of(program).read_text().splitlines())
        is_same = said["sources"] == sources and said["program"] == sum_of(program)
        return is_same and known_logic in (said["logic"], None) and os.access(program, os.X_OK)
    except (OSError, KeyError, ValueError):
        return False


def keep(made, program, sources, known_logic):
    """Puts a program that was made of these sources in its place; where this ends between the two steps, its stamp doesn't fit."""
    stamp = made.with_name(f"{made.name}.stamp")
    stamp.write_text(f"logic {known_logic}\nsources {sources}\nprogram {sum_of(made)}\n")
    os.replace(made, program)
    os.replace(stamp, stamp_of(program))


def toolchain():
    """Returns the toolchain's module of its own steps, or None where there is no toolchain on the path."""
    try:
        page = subprocess.run(["rt", "doc"], stdin=subprocess.DEVNULL, capture_output=True, text=True).stdout.strip()
    except OSError:
        page = ""
    if not page:
        tell("the Rattle toolchain is missing: its bin/rt has to be on the path (README.md, Install)")
        return None
    sys.dont_write_bytecode = True
    sys.path.insert(0, str(Path(page).parent / "bin"))
    import rtlib

    # (its first call sets a signal's handler, which only the main thread may; what is started by its words ends when this does, however it ends)
    rtlib.guarded()
    return rtlib


def at_signals(action):
    """Sets what a signal to end does, but for those that whoever started this has ignored."""
    for it in (signal.SIGTERM, signal.SIGHUP, signal.SIGINT):
        if signal.getsignal(it) is not signal.SIG_IGN:
            signal.signal(it, action)


def crate_of(rtlib, name=NAME, known=None):
    """Returns the program's crate, which knows those below it; those that are known already are the same objects."""
    folder = str(ROOT / "crates" / name)
    return rtlib.Crate(folder, rtlib.root_above(folder), {} if known is None else known)


def is_right_on_the_example(program, name=NAME):
    """Returns whether a program that was just made prints what it should, of the words and the data of its crate."""
    crate = ROOT / "crates" / name
    with tempfile.TemporaryDirectory() as room:
        shutil.copytree(crate / "data", f"{room}/data")
        try:
            ran = subprocess.run([str(program), *(crate / "args").read_text().splitlines()], cwd=f"{room}/data", stdin=subprocess.DEVNULL, capture_output=True)
        except OSError:
            return False
        status = int((crate / "status").read_text()) if (crate / "status").is_file() else 0
        return ran.returncode == status and ran.stdout == (crate / "stdout").read_bytes()
