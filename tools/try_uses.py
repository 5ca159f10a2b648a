#!/usr/bin/env python3
"""Tries the uses that the compiler must refuse before any proof.

`rt ci` tries the edits in must-fail/, which the prover must refuse. Those in tools/uses/ are refused earlier: each is
applied to a copy of its crate, and the compiler must say what the line `says:` has.
"""
import pathlib
import shutil
import subprocess
import sys
import tempfile

TOP = pathlib.Path(__file__).resolve().parent.parent


def lines_of(edit):
    """The words and texts of an edit's lines."""
    return [line.split(": ", 1) for line in edit.read_text().splitlines() if ": " in line]


def apply(edit, crates):
    """Applies the edit to a copy of the crates, and gives its crate's folder and what the compiler must say."""
    crate, says, file, old = None, None, None, None
    for word, text in lines_of(edit):
        if word == "crate":
            crate = crates / text
        elif word == "says":
            says = text
        elif word == "file":
            file = crate / text
        elif word == "old":
            old = text
        elif word == "new":
            source = file.read_text()
            if source.count(old) != 1:
                sys.exit(f"{edit.name}: the old text does not stand exactly once")
            file.write_text(source.replace(old, text))
    return crate, says


def refused(edit):
    """Whether the compiler refuses the use, and says why."""
    with tempfile.TemporaryDirectory() as folder:
        copy = pathlib.Path(folder)
        shutil.copy(TOP / "crates.txt", copy)
        shutil.copytree(TOP / "crates", copy / "crates", ignore=shutil.ignore_patterns("out", "target"))
        crate, says = apply(edit, copy / "crates")
        check = subprocess.run(["rt", "check"], cwd=crate, capture_output=True, text=True)
    return check.returncode != 0 and says in check.stdout + check.stderr


def main():
    edits = sorted(TOP.glob("tools/uses/*.edit"))
    let_through = [edit.name for edit in edits if not refused(edit)]
    print(f"uses: {len(edits) - len(let_through)} refused, {len(let_through)} let through")
    if let_through:
        sys.exit("let through: " + ", ".join(let_through))


main()
