"""Stored test data: a crate's stdin and stdout, which a script of this directory writes and is held to."""
import os
import sys

TOP = os.path.dirname(os.path.dirname(os.path.abspath(__file__)))


def hold(crate, files, words, usage):
    """Without a word, ends with 1 unless the crate's files are these. With --write it writes them and ends; other words get the usage."""
    if words not in ([], ["--write"]):
        sys.exit(usage)
    script = os.path.relpath(os.path.abspath(sys.argv[0]), TOP)
    for name, content in files.items():
        path = os.path.join("crates", crate, name)
        if words:
            with open(os.path.join(TOP, path), "wb") as file:
                file.write(content)
        elif kept(path) != content:
            sys.exit(f"{script}: {path} isn't what {script} --write would write; write it anew and look at what changes")
    if words:
        sys.exit(0)


def kept(path):
    """What a file holds, or None where there is none."""
    try:
        with open(os.path.join(TOP, path), "rb") as file:
            return file.read()
    except FileNotFoundError:
        return None
