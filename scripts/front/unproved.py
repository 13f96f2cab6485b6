"""Answers before anything is proved: the toolchain builds the program without its proof, and ask says so."""

import os
import shutil
import subprocess
import tempfile

from front.program import HOME, say

WORD = "unproved"


def run_cases(command, texts):
    """What an unproved build writes for each named text, with its status; nothing where it could not be built."""
    folder = tempfile.mkdtemp()
    try:
        for name, text in texts.items():
            with open(os.path.join(folder, name), "w", encoding="ascii") as file:
                file.write(text)
        run = subprocess.run(["rt", "try", "--cases", folder, "--", command], cwd=os.path.join(HOME, "crates", "suit_bin"),
                             stdin=subprocess.DEVNULL, capture_output=True, check=False)
    finally:
        shutil.rmtree(folder)
    found = read_cases(run.stdout.decode("ascii", "replace"))
    if not found:
        say("the program could not be built: " + (run.stderr.decode("utf-8", "replace").strip().split("\n")[-1] or "rt try told nothing"))
    return found


def read_cases(written):
    """The cases that rt try tells: a line with the name, what the program wrote, and a line with the status."""
    found, name, text = {}, None, []
    for line in written.split("\n"):
        if line.startswith("== "):
            name, text = line[3:], []
        elif name is not None and line.startswith(f"case={name} "):
            told = dict(word.split("=", 1) for word in line.split() if "=" in word)
            if told.get("run") == "ended":
                found[name] = "\n".join([*text, ""]) if text else "", int(told["status"])
            else:
                found[name] = None
            name = None
        elif name is not None:
            text.append(line)
    return found


def can_be_built():
    return shutil.which("rt") is not None
