"""Builds a program over copies of the crates that it uses."""
import os
import shutil
import subprocess
import sys

TOP = os.path.dirname(os.path.dirname(os.path.abspath(__file__)))


def crates():
    """What each crate of the repository uses, the lowest first."""
    with open(os.path.join(TOP, "crates.txt"), encoding="utf-8") as f:
        rows = [line.split(":") for line in f if line.strip() and not line.startswith("#")]
    return {name: uses.split() for name, uses in rows}


def below(uses):
    """The crates of the repository among these and below them, each with what it uses."""
    all_crates = crates()
    needed = set(uses)
    for name in reversed(all_crates):
        if name in needed:
            needed.update(all_crates[name])
    return {name: used for name, used in all_crates.items() if name in needed}


def copy_source(source, crate):
    """The program's source, a folder or its main.rt alone, as a crate. Its files end in .txt where they stand, beside the
    repository's crates, since it is none of them."""
    if os.path.isfile(source):
        os.makedirs(os.path.join(crate, "src"))
        shutil.copyfile(source, os.path.join(crate, "src", "main.rt"))
        return
    shutil.copytree(source, crate)
    for folder, _, names in os.walk(crate):
        for name in names:
            os.rename(os.path.join(folder, name), os.path.join(folder, name.removesuffix(".txt")))


def build(place, name, source, uses, *words):
    """The path of a program over the crates that it uses, which are proved on the way; it is run once with the words."""
    used = below(uses)
    for crate in used:
        shutil.copytree(os.path.join(TOP, "crates", crate), os.path.join(place, "crates", crate), symlinks=True)
    crate = os.path.join(place, "crates", name)
    copy_source(os.path.join(TOP, source), crate)
    with open(os.path.join(place, "crates.txt"), "w", encoding="utf-8") as f:
        for line in [*used.items(), (name, uses)]:
            f.write("%s: %s\n" % (line[0], " ".join(line[1])))
    built = subprocess.run(["rt", "run", "--", *words], cwd=crate, capture_output=True, text=True)
    if built.returncode:
        sys.exit(built.stdout + built.stderr)
    return os.path.join(crate, "out", name)
