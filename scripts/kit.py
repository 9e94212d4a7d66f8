"""What the tools here ask of the kit: where it stands, and which libraries in crates/*/out are of the sources' texts."""
import importlib.machinery
import importlib.util
import os
import shutil
import subprocess
import sys
from pathlib import Path

# The parts of a crate that a proof reads.
PARTS = ("src", "specs", "proofs")


def folder():
    """The folder of the kit."""
    page = subprocess.run(["rt", "doc"], capture_output=True, text=True, check=True).stdout.split()[0]
    return Path(page).parent


def load(name):
    """A program of the kit as a module: `rt`, or `rtlib.py`, which knows how a crate is checked."""
    words, sys.argv = sys.argv, [name]
    loader = importlib.machinery.SourceFileLoader(Path(name).stem, str(folder() / "bin" / name))
    module = importlib.util.module_from_spec(importlib.util.spec_from_loader(loader.name, loader))
    loader.exec_module(module)
    sys.argv = words
    return module


def is_library_of(crate):
    """Whether the library in a crate's out/ is of its texts: by its stamp, or where `rt ci` left none, by its age."""
    made, stamp = Path(crate.rlib), Path(crate.rlib).parent / "stamp"
    if not (made / "format").is_file():
        return False
    if stamp.is_file():
        return stamp.read_text() == crate.stamp()
    files = [path for it in [crate, *crate.below()] for part in PARTS for path in (Path(it.folder) / part).rglob("*")]
    libraries = [Path(it.rlib) for it in crate.below() if Path(it.rlib).is_dir()]
    return all(path.stat().st_mtime <= made.stat().st_mtime for path in [*files, *libraries])


def stands(crate):
    """Whether a crate's library is of its texts, as `is_library_of` has it: then it has the stamp that `rt` looks for."""
    stamp = Path(crate.rlib).parent / "stamp"
    if not is_library_of(crate):
        return False
    if not stamp.is_file():
        stamp.write_text(crate.stamp())
    return True


def hand_over(crate, to):
    """Puts a crate's library into the folder of a crate of the same texts, as links where that can be."""
    source, place = Path(crate.rlib).parent, to / "out" / "rlib"
    shutil.rmtree(place, ignore_errors=True)
    try:
        shutil.copytree(source, place, copy_function=os.link)
    except shutil.Error:
        shutil.rmtree(place)
        shutil.copytree(source, place)
