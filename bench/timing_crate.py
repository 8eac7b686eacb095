"""Timing programs, written as crates of this repository; none of them is committed."""
import os

CRATES = os.path.join(os.path.dirname(os.path.abspath(__file__)), "..", "crates")


def program_of(name):
    """Where the program of a timing crate stands once it is built."""
    return os.path.join(CRATES, name, "out", name)


def write_crate(line, files):
    """Writes a crate of these files, texts by their names in it, and its line of crates.txt where it isn't there."""
    folder = os.path.join(CRATES, line.split(":")[0])
    for name, text in files.items():
        path = os.path.join(folder, name)
        os.makedirs(os.path.dirname(path), exist_ok=True)
        with open(path, "w", encoding="utf-8") as out:
            out.write(text)
    with open(os.path.join(CRATES, "..", "crates.txt"), "r+", encoding="utf-8") as crates:
        if line not in crates.read():
            crates.write(line)
