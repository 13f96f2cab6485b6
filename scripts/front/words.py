"""The other words of ask: help, version, prove and install."""

import os
import shutil
import subprocess

from front.cards import Mistake
from front.program import HOME, Program


def commands_of_the_program():
    """Each command with what it writes and an example, as scripts/commands has them."""
    with open(os.path.join(HOME, "scripts", "commands"), encoding="ascii") as file:
        lines = [line.rstrip("\n").split("|") for line in file if not line.startswith("#")]
    return {name: (what, example) for name, what, example in lines}


HELP = """./ask NORTH SOUTH GOAL.. [LINE..]   how to play a suit: ./ask AKJT xxx 4
    North's hand first, then South's, as players write them: T or 10 is the ten, x a small card, - none
    a goal is a number of tricks, or tricks for as many as can be; several goals give a line each
    a line is one of a question: 'start S' (the first lead), 'entries 0 1' (crossings to North, to South),
    'regain S' (who can win the defenders' return), 'west 2 4', 'east 3 5' (how many cards), 'vacant 10 13'
    --answer FILE keeps the question with its answer; --seconds N bounds the time, 60 where nothing is said
./ask table FILE [KEPT]             the values of a table of suits with a header (north,south,goal), names and comments, joined to
                                    its rows as they are ready; a table that is kept in a file goes on where it stopped
./ask help [COMMAND]                this, or one of the program's commands: {}
./ask prove                         proves and builds the program
./ask version                       the commit and the toolchain
./ask install DIR                   puts the proved program there, which needs nothing else of this folder"""


def tell_help(words):
    commands = commands_of_the_program()
    if not words:
        print(HELP.format(", ".join(commands)))
    elif len(words) == 1 and words[0] in commands:
        what, example = commands[words[0]]
        print(f"{words[0]}: {what}\n    {example}")
    else:
        raise Mistake(f"'{' '.join(words)}' is no command of the program; {', '.join(commands)} are")
    return 0


def first_line(words):
    try:
        return subprocess.run(words, cwd=HOME, capture_output=True, text=True, check=True).stdout.split("\n")[0]
    except (OSError, subprocess.CalledProcessError):
        return None


def version(words):
    if words:
        raise Mistake(f"nothing stands behind version, and here is '{words[0]}'")
    print(f"suit {first_line(['git', 'rev-parse', '--short', 'HEAD']) or 'of no known commit'}")
    print(f"toolchain {first_line(['rt', 'version']) or 'not found'}")
    return 0


def prove(words):
    if words:
        raise Mistake(f"nothing stands behind prove, and here is '{words[0]}'")
    run = subprocess.run(["./suit", "weigh"], cwd=HOME, input=b"north A\nsouth 2\ngoal 1\nend\n", stdout=subprocess.DEVNULL, check=False)
    if run.returncode == 0:
        print("the proved program stands")
    return run.returncode


def install(words):
    if len(words) != 1:
        raise Mistake("install takes one folder, as in ./ask install ~/bin")
    Program()
    os.makedirs(words[0], exist_ok=True)
    shutil.copy2(os.path.join(HOME, "out", "suit"), os.path.join(words[0], "suit"))
    with open(os.path.join(words[0], "suit.version"), "w", encoding="ascii") as file:
        file.write(f"{first_line(['git', 'rev-parse', 'HEAD']) or 'of no known commit'}\n")
    print(f"{os.path.join(words[0], 'suit')} stands")
    return 0
