# What the mistake of a question is: awk -v kind=NUMBER -v at=LINE -f scripts/mistakes.awk QUESTION writes a sentence, and where it
# can be told the line as it is to be. The numbers of the kinds are those of docs/FORMATS.md.

BEGIN {
    forms = "north AQ|south 32|start S|regain S|entries 0 1|vacant 13 13|west 0 13|goal 2|nodes 200000|pivots 100000|end"
    many = split(forms, form, "|")
    for (number = 1; number <= many; number++) {
        split(form[number], words, " ")
        form_of[words[1]] = form[number]
        keywords = keywords (number > 1 ? ", " : "") words[1]
    }
    ranks = "AKQJT98765432"
}

{
    sub(/\r$/, "")
    first = tolower($1)
    if (NR == at) {
        told = first
        values = NF - 1
        value = $2
    }
    if (!(first in stood)) {
        stood[first] = NR
        cards[first] = $2
    }
}

# The cards of a holding, the ten as one letter.
function letters(holding) {
    holding = toupper(holding)
    gsub(/10/, "T", holding)
    return holding
}

function count_of_small(holding) {
    return gsub(/X/, "", holding)
}

# A hand with the lowest cards in the place of each x: those that neither hand names, the highest of them South's.
function with_small(hand,    north, south, left, number, of_north, of_south, mine) {
    north = letters(cards["north"])
    south = letters(cards["south"])
    for (number = 6; number <= 13; number++)
        if (!index(north south, substr(ranks, number, 1))) left = left substr(ranks, number, 1)
    of_north = count_of_small(north)
    of_south = count_of_small(south)
    if (of_north + of_south > length(left)) return ""
    mine = hand == "north" ? substr(left, length(left) - of_north + 1) : substr(left, length(left) - of_north - of_south + 1, of_south)
    hand = hand == "north" ? north : south
    gsub(/X/, "", hand)
    return hand mine
}

function missing(    wanted, number, line) {
    split("north south goal end", wanted, " ")
    for (number = 1; number <= 4; number++)
        if (!(wanted[number] in stood)) line = line (line == "" ? "" : ", ") wanted[number]
    return line
}

function shared(    number, card, both) {
    for (number = 1; number <= 13; number++) {
        card = substr(ranks, number, 1)
        if (index(letters(cards["north"]), card) && index(letters(cards["south"]), card)) both = both " " card
    }
    return both
}

function of_word() {
    if (!(told in form_of)) return "'" told "' is no keyword; the keywords are " keywords
    if (told == "end") return "the line end has a second word; write it alone"
    if ((told == "start" || told == "regain") && values == 1)
        return "behind " told " is due N, S or either, as in " form_of[told]
    if ((told == "north" || told == "south") && values > 1)
        return "the cards of " told " stand without blanks between them, as in " form_of[told]
    return told " has too few or too many words behind it; it is written as " form_of[told]
}

function of_rank(    line) {
    if (toupper(value) !~ /X/) return "a holding has a letter that is no card; the cards are A K Q J T 9 .. 2, or - for none"
    line = with_small(told)
    return "x is no card here (./ask takes it); " (line == "" ? "name each card" : "it could be written as " told " " line)
}

END {
    if (kind == 1) print "a line is missing: " missing()
    else if (kind == 2) print of_word()
    else if (kind == 3) print told " stood on an earlier line, " stood[told]
    else if (kind == 4) print of_rank()
    else if (kind == 5) print "a holding names a card twice"
    else if (kind == 6) print "both hands hold:" shared()
    else if (kind == 7) print "neither hand holds a card"
    else if (kind == 8) print "a number is due here, as in " form_of[told]
    else if (kind == 9) print "a number is too small or too large" (told in form_of && told != "end" ? ", as " told " is written: " form_of[told] : "")
    else if (kind == 10) print "the missing cards do not fit into the vacant places"
    else if (kind == 11) print "West cannot hold as many cards as asked for"
    else if (kind == 12) print "something stands behind the line end"
    else print "the question has a mistake"
}
