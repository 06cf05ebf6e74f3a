#!/usr/bin/env python3
"""Programs that must not compile: each crates/NAME/refused/*.edit is put on a copy, and the compiler has to refuse it with what its line 'says:' has.

usage: python3 tools/refused.py     at the top of the repository; prints nothing where all are refused

An edit has the lines file:, old: and new: of a must-fail edit, and says:. NAME is a library. It is refused before any proof, by the types alone, so the gate's
must-fail edits cannot hold it.
"""

import glob
import os
import shutil
import subprocess
import sys
import tempfile

# A crate is compiled unproved for its tests, so the copy has one.
A_TEST = "\n#[cfg(test)]\nmod compiles {\n    #[test]\n    fn nothing() {}\n}\n"


def parts(path):
    with open(path, encoding="utf-8") as f:
        return dict(line.rstrip("\n").split(": ", 1) for line in f if ": " in line)


def trouble(path):
    """Why an edit does not count, or None where it is refused as it says."""
    edit, crate = parts(path), path.split("/")[1]
    with tempfile.TemporaryDirectory() as copy:
        shutil.copytree("crates", copy + "/crates", ignore=shutil.ignore_patterns("out", "target"))
        shutil.copy("crates.txt", copy)
        source, root = f"{copy}/crates/{crate}/{edit['file']}", f"{copy}/crates/{crate}/src/lib.rt"
        with open(source, encoding="utf-8") as f:
            text = f.read()
        if text.count(edit["old"]) != 1:
            return "its old text does not stand once in its file"
        with open(source, "w", encoding="utf-8") as f:
            f.write(text.replace(edit["old"], edit["new"]))
        with open(root, "a", encoding="utf-8") as f:
            f.write(A_TEST)
        ran = subprocess.run(["rt", "try", "--test"], cwd=f"{copy}/crates/{crate}", capture_output=True, text=True)
        said = ran.stdout + ran.stderr
    if ran.returncode == 0:
        return "it compiles"
    if edit["says"] not in said:
        return "it is refused for something else:\n" + said[-2000:]
    return None


def main():
    found = {path: trouble(path) for path in sorted(glob.glob("crates/*/refused/*.edit"))}
    if not found:
        print("no crates/NAME/refused/*.edit here: run it at the top of the repository")
        return 1
    for path, why in found.items():
        if why:
            print(f"{path}: {why}")
    return 1 if any(found.values()) else 0


if __name__ == "__main__":
    sys.exit(main())
