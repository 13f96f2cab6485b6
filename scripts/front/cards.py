"""What is asked: hands as players write them, goals, and lines of a question."""

RANKS = "AKQJT98765432"
SMALL = "98765432"
ONE_VALUE = ("start", "regain", "goal", "nodes", "pivots")
TWO_VALUES = ("entries", "vacant", "west", "east")


class Mistake(Exception):
    """Words that ask nothing: one sentence says which and what is right."""


def cards_of(hand, word):
    """The named cards of a hand, and how many small ones it has."""
    text = "".join(word.upper().split()).replace("10", "T")
    if text == "-":
        return "", 0
    for letter in text:
        if letter not in RANKS + "X":
            raise Mistake(f"'{letter}' in {hand}'s {word} is no card; cards are A K Q J T 9 .. 2, x for a small one, - for none")
    named = text.replace("X", "")
    for letter in named:
        if named.count(letter) > 1:
            raise Mistake(f"{hand}'s {word} has the {letter} twice; name each card once")
    return named, text.count("X")


def by_rank(cards):
    return "".join(sorted(cards, key=RANKS.index))


def hands_of(north_word, south_word):
    """Both hands with all cards named: the small ones are the lowest that neither names, the highest of them South's."""
    (north, north_small), (south, south_small) = cards_of("North", north_word), cards_of("South", south_word)
    for letter in north:
        if letter in south:
            raise Mistake(f"both hands hold the {letter}; {north_word} and {south_word} may not share a card")
    held = len(north) + len(south) + north_small + south_small
    if held > 13:
        raise Mistake(f"{north_word} and {south_word} have {held} cards; a suit has 13")
    if held == 0:
        raise Mistake("neither hand holds a card; one of them needs one, as in ./ask A -")
    left = [card for card in SMALL if card not in north + south]
    count = north_small + south_small
    if count > len(left):
        raise Mistake(f"{north_word} and {south_word} have {count} x, and only {len(left)} small cards are left: {' '.join(left) or 'none'}")
    taken = left[len(left) - count:]
    return by_rank(north + "".join(taken[south_small:])), by_rank(south + "".join(taken[:south_small])), count


def goal_of(word):
    if word.isascii() and word.isdigit() and len(word) < 3 and int(word) <= 13:
        return str(int(word))
    if word.lower() == "tricks":
        return "tricks"
    raise Mistake(f"'{word}' is no goal; a number of tricks from 0 to 13 is due, or tricks")


def is_number(word, most=13):
    return word.isascii() and word.isdigit() and len(word) <= 9 and int(word) <= most


def line_of(text, missing):
    """A line of the question: its keyword and its values."""
    keyword, *values = text.lower().split()
    due = 1 if keyword in ONE_VALUE else 2 if keyword in TWO_VALUES else None
    if due is None or keyword == "goal":
        raise Mistake(f"'{text}' is no line of a question; start, regain, entries, vacant, west, east, nodes and pivots are")
    forms = {"start": "start S", "regain": "regain S", "entries": "entries 0 1", "vacant": "vacant 10 13",
             "west": "west 2 4", "east": "east 3 5", "nodes": "nodes 4000000", "pivots": "pivots 1000000"}
    wrong = Mistake(f"'{text}' is not right; write it as '{forms[keyword]}'")
    if len(values) != due:
        raise wrong
    if keyword in ("start", "regain"):
        if values[0] not in ("n", "s", "either"):
            raise wrong
        values = [values[0] if values[0] == "either" else values[0].upper()]
    elif keyword in ("nodes", "pivots"):
        if not is_number(values[0], 4000000 if keyword == "nodes" else 1000000) or (keyword == "nodes" and int(values[0]) == 0):
            raise wrong
    elif not all(is_number(value) or (keyword == "entries" and value == "free") for value in values):
        raise wrong
    if keyword == "east":
        least, most = int(values[0]), int(values[1])
        if least > most or least > missing:
            raise Mistake(f"'{text}' is not right; the defenders have {missing} cards of this suit, and the fewest stand first")
        return "west", f"{max(0, missing - most)} {missing - least}"
    return keyword, " ".join(values)


class Asked:
    """What was asked: both hands, the goals, and lines of the question."""

    def __init__(self, words):
        self.north, self.south, self.small = hands_of(words[0], words[1])
        missing = 13 - (len(self.north) + len(self.south))
        self.goals, self.lines = [], {}
        for word in words[2:]:
            if " " in word.strip():
                keyword, value = line_of(word, missing)
                if keyword in self.lines:
                    raise Mistake(f"'{word}' says {keyword} a second time; say it once")
                self.lines[keyword] = value
            else:
                self.goals.append(goal_of(word))
        if not self.goals:
            raise Mistake("a goal is due behind the hands: a number of tricks, or tricks, as in ./ask AKJT xxx 4")

    def question(self, goal, narrower=None):
        """The text of the question, or of the same with narrower lines."""
        lines = {"nodes": "4000000", "pivots": "1000000", **self.lines, **(narrower or {})}
        text = f"north {self.north or '-'}\nsouth {self.south or '-'}\ngoal {goal}\n"
        return text + "".join(f"{keyword} {value}\n" for keyword, value in lines.items()) + "end\n"

    def are_entries_free(self):
        return self.lines.get("entries", "free free") == "free free"

    def is_start_free(self):
        return self.lines.get("start", "either") == "either"
