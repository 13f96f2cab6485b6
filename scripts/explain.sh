# What a status of the program means and what to do: the launcher reads this file at the top of the checkout, and has `say`.
# shellcheck shell=sh

# A line of a file, with each byte that is no printable ASCII as <hex>: a no-break space or a suit symbol looks right and is wrong.
shown_line() {
    sed -n "${2}p" "$1" | head -c 160 | od -An -v -tu1 | tr -s ' ' '\n' | awk '
        $1 == "" || $1 == 10 || $1 == 13 { next }
        $1 >= 32 && $1 < 127 { line = line sprintf("%c", $1 + 0); next }
        $1 == 9 { line = line " "; next }
        { line = line sprintf("<%02x>", $1) }
        END { print line }'
}

# Tells the mistake of a question: the words are the file with the input and what the program wrote.
explain_malformed() {
    kind=${2#malformed }
    kind=${kind%% *}
    line=${2##* }
    text=$(shown_line "$1" "$line")
    say "line $line: ${text:-(there is no such line)}"
    case $text in
    '<ef><bb><bf>'*) say 'a byte order mark stands in front of it, which belongs to its first word; save the file without it' ;;
    *'<'??'>'*) say 'what stands between < and > is no letter that the program knows, however it looks; write it again' ;;
    esac
    say "$(awk -v "kind=$kind" -v "at=$line" -f scripts/mistakes.awk "$1"); docs/FORMATS.md has it under \"What can be wrong\", number $kind"
}

# The first line of the answer behind a question.
answer_begins() {
    awk '{ line = tolower($0); gsub(/[ \t\r]/, "", line) } line == "end" { print NR + 1; exit }' "$1"
}

# What is wrong with a line of an answer text, by its number.
answer_fault() {
    case $1 in
    1) echo 'an answer begins with the line answer 1' ;;
    2) echo 'its words do not have the form that is due there; words have one space between them' ;;
    3) echo 'a word is no number of an answer where one is due (whole numbers without a sign; a value in lowest terms)' ;;
    4) echo 'a word is no move of the classes of this question' ;;
    5) echo "a line of west has too few or too many of West's counts" ;;
    6) echo 'the text ends before the line feed of the line that is due' ;;
    *) echo 'something stands behind the end of the answer' ;;
    esac
}

# What is wrong with a row of a plan or of a defence, by its number.
row_fault() {
    case $1 in
    1) echo 'the denominator is not from 1 to 2^90' ;;
    2) echo 'no row can stand there: play does not come there, is decided, or the other side is on turn' ;;
    3) echo 'the row is to stand before the one above it' ;;
    4) echo 'a move is not legal there, or does not come after the one named before it' ;;
    5) echo 'a count is below 0' ;;
    6) echo 'the counts of the row do not add up to what comes there, most often since an earlier choice has no row' ;;
    *) echo "no deal that can be has these counts of West's" ;;
    esac
}

# A row of the plan (at) or of the defence (west) behind a question.
row_of() {
    begins=$(answer_begins "$1")
    wanted=$(awk -v begins="${begins:-1}" -v word="$2" -v row="$3" 'NR >= begins && $1 == word && ++count == row { print NR; exit }' "$1")
    [ -z "$wanted" ] || shown_line "$1" "$wanted"
}

# Tells what is wrong behind a question: the words are the command, the file with the input and what the program wrote.
explain_invalid() {
    kind=$(echo "$3" | cut -d ' ' -f 4)
    number=${3##* }
    case $3 in
    'not valid: answer 6 at line 1')
        say "no answer stands behind the question: (cat FILE; ./suit solve < FILE) | ./suit $1" ;;
    'not valid: answer '*)
        say "line $number of the answer: $(shown_line "$2" $(($(answer_begins "$2") + number - 1)))"
        say "$(answer_fault "$kind"); where solve refused, its line stands there" ;;
    'not valid: plan '*)
        say "row $number of the plan: $(row_of "$2" at "$number")"
        say "$(row_fault "$kind")" ;;
    'not valid: defence '*)
        say "row $number of the defence: $(row_of "$2" west "$number")"
        say "$(row_fault "$kind")" ;;
    'not valid: least '*) say "the plan is in order and earns ${3##* } against best defence, which is not the value" ;;
    'not valid: most '*) say "the plan earns the value, and the defence lets declarer have up to ${3##* }, which is not the value" ;;
    *) say 'the answer is not right; the line tells its first mistake (docs/FORMATS.md, "Checking an answer")' ;;
    esac
}

# Tells what a table may have that is none: the words are the file with the input and the number of the record, where it is known.
explain_table() {
    record=${2:-1}
    text=$(shown_line "$1" "$(awk -v record="$record" '/[^\r]/ && ++count == record { print NR; exit }' "$1")")
    say "record $record: $text"
    case $text in
    '#'*) say 'it looks like a comment, and a table has none; ./ask table takes them' ;;
    *[Nn][Oo][Rr][Tt][Hh]*) say 'it looks like a header, and a table has none; ./ask table takes one' ;;
    *';'*) say 'fields have commas between them, not semicolons' ;;
    *) say 'a record has 13 fields between commas, empty ones counted' ;;
    esac
    say 'docs/FORMATS.md has the columns under "Tables"'
}

# Ways to a smaller question; all but the first ask something else, so they are to be true of the deal.
tell_smaller() {
    say 'name small cards as the lowest ones, AQ2 in place of AQ7; then say where the lead is and how many entries there'
    say 'really are (start S, entries 0 1), or how many cards West may have (west 2 4): with these it is another question'
}

# Tells a status; where an input was kept: the command, the file with it and the first line that the program wrote.
explain() {
    case $1 in
    0)
        case ${2:-}:${4:-} in
        table:*,malformed,*)
            case $(head -n 1 "$3" | tr '[:upper:]' '[:lower:]') in
            *north*) explain_table "$3" 1 ;;
            esac ;;
        esac ;;
    1) [ $# -eq 1 ] || explain_invalid "$2" "$3" "$4" ;;
    3) [ $# -eq 1 ] || explain_malformed "$3" "$4" ;;
    4) say "the game is larger than the question's budget; ask a smaller one, or add a line: nodes 4000000"
        tell_smaller ;;
    5) say "a round took more steps than the question's budget; add a line: pivots 1000000" ;;
    6) say 'a number of the solution is too large to be told; ask a smaller question'
        tell_smaller ;;
    7) say 'the input could not be read' ;;
    8) say 'the output could not be written: the disk is full, or its reader went away' ;;
    9) say 'there is not enough memory; make the question smaller, or free some' ;;
    10) say 'the solution needs more than can be solved at once; ask a smaller question'
        tell_smaller ;;
    11) say 'the input has more than 2,097,152 bytes, or a table more than 16,777,216' ;;
    12) say 'this record of the table has more or fewer than 13 fields, so nothing was judged'
        [ $# -eq 1 ] || explain_table "$3" "${4##* }" ;;
    15) say 'the system did not tell the program its words' ;;
    70) ;;
    *) say "the program ended with status $1" ;;
    esac
}
