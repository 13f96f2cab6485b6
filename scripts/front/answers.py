"""Answers to goals: a value with its line of play, or a bound, or why there is none."""

import os
import subprocess
import sys
import tempfile
import time

from front.cards import Asked, Mistake, is_number
from front.program import HOME, Program, goal_in_words, is_built, rounded, say, value_in
from front.unproved import can_be_built, run_cases

LOWER = ("1 1", "0 1", "1 0", "0 0")
FIRST_LEADS = {"S": "the first lead in South", "N": "the first lead in North"}
WORDS_OF_BOUNDS = {
    "1 1": "one entry to each hand",
    "0 1": "no entry but one to South",
    "1 0": "no entry but one to North",
    "0 0": "no entry",
}


def show_hands(asked):
    spaced = [" ".join(hand.replace("T", "t")).replace("t", "10") or "-" for hand in (asked.north, asked.south)]
    print(f"        North\n        {spaced[0]}\n\n        South\n        {spaced[1]}\n")
    limited = asked.lines.get("entries", "free free") != "free free"
    if asked.small and limited:
        print("The small cards were dealt as shown; where entries are limited, another dealing of them may have another value.\n")


def refusal_in_words(told):
    if told is None:
        return "the time was over"
    line = told[0].strip()
    return f"the program said '{line}'" if line else f"the program ended with status {told[1]}"


def narrower_lines(asked):
    """Lines that ask the same with fewer entries or with the first lead in one hand, those that leave declarer most first."""
    entries = [{"entries": few} for few in LOWER] if asked.are_entries_free() else [{}]
    starts = [{"start": hand} for hand in FIRST_LEADS] if asked.is_start_free() else []
    found = [few for few in entries if few]
    return found + [{**few, **start} for few in entries for start in starts]


def narrower_in_words(lines):
    words = [FIRST_LEADS[lines["start"]]] if "start" in lines else []
    words += [WORDS_OF_BOUNDS[lines["entries"]]] if "entries" in lines else []
    return "with " + " and ".join(words)


class Bounds:
    """The same question with narrower lines, solved beside it: they never earn more, which is known, not proved here."""

    def __init__(self, program, asked, goal):
        self.program, self.asked, self.goal = program, asked, goal
        self.waiting = narrower_lines(asked)
        self.running, self.best = [], None

    def go_on(self):
        for lines, process, written in list(self.running):
            if process.poll() is not None:
                self.running.remove((lines, process, written))
                self.note(lines, written, process)
        places = max(1, len(os.sched_getaffinity(0)) - 1)
        while self.waiting and len(self.running) < places:
            lines = self.waiting.pop(0)
            self.running.append((lines, *started(self.program, self.asked.question(self.goal, lines))))

    def note(self, lines, written, process):
        if process in self.program.running:
            self.program.running.remove(process)
        written.seek(0)
        answer = written.read().decode("ascii", "replace")
        if process.returncode == 0 and (self.best is None or value_in(answer) > self.best[0]):
            self.best = value_in(answer), lines, answer

    def is_over(self):
        return not self.waiting and not self.running


def started(program, question):
    """A run of solve whose output goes to a file, so that nobody has to read it while it works."""
    written = tempfile.TemporaryFile()
    asked = tempfile.TemporaryFile()
    asked.write(question.encode())
    asked.seek(0)
    process = subprocess.Popen([os.path.join(HOME, "out", "suit"), "solve"], cwd=HOME, stdin=asked, stdout=written,
                               stderr=subprocess.DEVNULL, start_new_session=True)
    program.running.append(process)
    return process, written


def solve(program, asked, goal, deadline):
    """The answer to a goal, or why there is none, with the best lower bound."""
    begun = time.monotonic()
    process, written = started(program, asked.question(goal))
    bounds = Bounds(program, asked, goal)
    shown = False
    while time.monotonic() < deadline:
        past = time.monotonic() - begun
        if process.poll() is not None and (process.returncode == 0 or bounds.is_over()):
            break
        if past > 2:
            bounds.go_on()
            if sys.stderr.isatty():
                shown = True
                print(f"\rask: {int(past)} s", end="", file=sys.stderr, flush=True)
        elif process.poll() is not None:
            bounds.go_on()
        time.sleep(0.02 if past < 1 else 0.1)
    if shown:
        print("\r\033[K", end="", file=sys.stderr, flush=True)
    over = process.poll() is not None
    written.seek(0)
    told = (written.read().decode("ascii", "replace"), process.returncode) if over else None
    program.end_all()
    return told, bounds.best


def tell_goal(program, asked, goal, deadline, answer_file):
    told, best = solve(program, asked, goal, deadline)
    if told and told[1] == 0:
        value = value_in(told[0])
        print(f"{goal_in_words(goal)}: {rounded(value, goal)}, exactly {value.numerator}/{value.denominator}")
        if len(asked.goals) == 1:
            text = asked.question(goal) + told[0]
            lines = program.run(program.start("lines", text), deadline)
            if lines and lines[1] == 0:
                print("\n" + lines[0].split("\n", 1)[1], end="")
            else:
                print("\n(no time was left to tell the line of play)")
            if answer_file:
                with open(answer_file, "w", encoding="ascii") as file:
                    file.write(text)
        return True
    if best:
        print(f"{goal_in_words(goal)}: at least {rounded(best[0], goal)}, exactly {best[0].numerator}/{best[0].denominator}: "
              f"{narrower_in_words(best[1])}")
        print(f"    of the question itself {refusal_in_words(told)}")
        return True
    print(f"{goal_in_words(goal)}: no value: {refusal_in_words(told)}")
    print("    make it smaller: 'start S' with 'entries 0 1', or a range for West as 'west 2 4', where they are true of the deal")
    return False


def answer_unproved(asked, answer_file):
    """The same by a build without proofs: each value says so, and the bounds are left out."""
    say("nothing is proved here yet, so an unproved build answers, in a minute or two")
    show_hands(asked)
    found = run_cases("solve", {goal: asked.question(goal) for goal in asked.goals})
    for goal in asked.goals:
        told = found.get(goal)
        if told is None or told[1] != 0:
            print(f"{goal_in_words(goal)}: no value (unproved): {refusal_in_words(told)}")
            continue
        value = value_in(told[0])
        print(f"{goal_in_words(goal)}: {rounded(value, goal)}, exactly {value.numerator}/{value.denominator} "
              "(unproved; ./ask prove makes the proved program, in about half an hour)", flush=True)
        if len(asked.goals) == 1:
            text = asked.question(goal) + told[0]
            lines = run_cases("lines", {"lines": text}).get("lines")
            if lines and lines[1] == 0:
                print("\n" + lines[0].split("\n", 1)[1], end="")
            if answer_file:
                with open(answer_file, "w", encoding="ascii") as file:
                    file.write(text)
    return 0 if all(found.get(goal) and found[goal][1] == 0 for goal in asked.goals) else 1


def answer(words):
    answer_file, seconds, rest = None, 60, []
    words = iter(words)
    for word in words:
        if word == "--answer":
            answer_file = next(words, None)
            if answer_file is None:
                raise Mistake("--answer is to have a file behind it, as --answer suit.txt")
        elif word == "--seconds":
            number = next(words, "")
            if not is_number(number, 999999) or int(number) == 0:
                raise Mistake(f"'{number}' behind --seconds is no number of seconds, as --seconds 60")
            seconds = int(number)
        else:
            rest.append(word)
    if len(rest) < 2:
        raise Mistake("two hands and a goal are due, as in ./ask AKJT xxx 4")
    asked = Asked(rest)
    if answer_file and len(asked.goals) > 1:
        raise Mistake("--answer keeps one answer, so ask one goal with it")
    if not is_built() and can_be_built():
        return answer_unproved(asked, answer_file)
    program = Program()
    show_hands(asked)
    deadline = time.monotonic() + seconds
    try:
        found = [tell_goal(program, asked, goal, deadline, answer_file) for goal in asked.goals]
    finally:
        program.end_all()
    return 0 if all(found) else 1
