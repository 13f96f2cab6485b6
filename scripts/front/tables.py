"""Tables of suits as authors keep them: a header, comments, names, cards with x. Lines come as they are ready."""

import csv
import os
import sys

from front.cards import Asked, Mistake
from front.program import Program, rounded
from fractions import Fraction

COLUMNS = ("north", "south", "start", "regain", "entries north", "entries south", "vacant west", "vacant east",
           "west least", "west most", "goal", "nodes", "pivots")
FOUND = ("result", "value", "rounded")
PIECE = 4


class Row:
    """A row of the table: its fields as they stand, and the record that it asks, or what is wrong with it."""

    def __init__(self, fields, columns):
        padded = [*fields, *[""] * len(columns)][:len(columns)]
        self.fields, self.record, self.goal, self.wrong = padded, None, None, None
        named = dict(zip(columns, fields))
        try:
            if len(fields) != len(columns):
                raise Mistake(f"{len(fields)} fields where {len(columns)} are due")
            asked = Asked([named.get("north", ""), named.get("south", ""), named.get("goal", "")])
        except Mistake as mistake:
            self.wrong = str(mistake)
            return
        self.goal = asked.goals[0]
        told = {**named, "north": asked.north or "-", "south": asked.south or "-", "goal": self.goal}
        told["nodes"] = named.get("nodes", "") or "4000000"
        told["pivots"] = named.get("pivots", "") or "1000000"
        self.record = ",".join(told.get(column, "").strip() for column in COLUMNS)


def columns_of(first):
    """The columns that a first row names, or nothing where it is no header."""
    columns = [field.strip().lower() for field in first]
    if "north" not in columns:
        return None
    missing = [column for column in ("south", "goal") if column not in columns]
    if missing:
        raise Mistake(f"the header has no column {' and no column '.join(missing)}; north, south and goal are due")
    return columns


def read_table(file):
    """The header to be written, and the rows."""
    lines = (line for line in file if line.strip() and not line.lstrip().startswith("#"))
    rows = list(csv.reader(lines, skipinitialspace=True))
    if not rows:
        raise Mistake("the table has no row; a row is as AQ,xx,2 below the header north,south,goal")
    columns = columns_of(rows[0])
    if columns is None:
        columns = list(COLUMNS) if len(rows[0]) == len(COLUMNS) else ["name", *COLUMNS]
        if len(rows[0]) != len(columns):
            raise Mistake(f"a header is due, as north,south,goal, or rows of {len(COLUMNS)} fields as those of ./suit table")
        header = columns
    else:
        header, rows = rows[0], rows[1:]
    return [*header, *FOUND], [Row(fields, columns) for fields in rows]


def found_of(row, line):
    """What is told of a row: a word, the value or a number, and the value as players say it."""
    if row.wrong:
        return ["mistake", row.wrong, ""]
    _, word, detail = line.split(",")
    return [word, detail, rounded(Fraction(detail), row.goal) if word == "value" else ""]


def judge(program, rows):
    """What is told of each row of a piece."""
    records = [row.record for row in rows if not row.wrong]
    lines = []
    if records:
        told = program.run(program.start("table", "\n".join(records) + "\n"), None)
        if told[1] != 0:
            raise Mistake(f"the program ended with status {told[1]}: {told[0].strip() or 'nothing was written'}")
        lines = told[0].splitlines()
    lines = iter(lines)
    return [found_of(row, None if row.wrong else next(lines)) for row in rows]


def rows_done(name, header, rows):
    """How many rows a kept table has already: it goes on there, where those are rows of this table."""
    if not os.path.exists(name):
        return 0
    with open(name, encoding="utf-8", newline="") as file:
        text = file.read()
    whole = text[: text.rfind("\n") + 1]
    kept = list(csv.reader(whole.splitlines()))
    if kept and kept[0] != header or any(
        len(there) != len(header) or there[: len(row.fields)] != row.fields for there, row in zip(kept[1:], rows)
    ) or len(kept) > len(rows) + 1:
        raise Mistake(f"{name} stands and has no rows of this table; give another name, or take it away")
    if len(whole) < len(text):
        with open(name, "w", encoding="utf-8", newline="") as file:
            file.write(whole)
    return max(0, len(kept) - 1) if kept else 0


def write_rows(program, header, rows, file, done):
    written = csv.writer(file, lineterminator="\n")
    if done == 0 and (file is sys.stdout or file.tell() == 0):
        written.writerow(header)
    for begin in range(done, len(rows), PIECE):
        piece = rows[begin : begin + PIECE]
        for row, found in zip(piece, judge(program, piece)):
            written.writerow([*row.fields, *found])
        file.flush()


def table(words):
    if len(words) not in (1, 2):
        raise Mistake("table takes a file, and where you like one to keep: ./ask table suits.csv values.csv")
    try:
        with open(words[0], encoding="utf-8-sig", newline="") as file:
            header, rows = read_table(file)
    except (OSError, UnicodeDecodeError) as fault:
        raise Mistake(f"{words[0]} cannot be read: {fault}") from fault
    program = Program()
    try:
        if len(words) == 1:
            write_rows(program, header, rows, sys.stdout, 0)
            return 0
        done = rows_done(words[1], header, rows)
        with open(words[1], "a", encoding="utf-8", newline="") as file:
            write_rows(program, header, rows, file, done)
        return 0
    finally:
        program.end_all()
