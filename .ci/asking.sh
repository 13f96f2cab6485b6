# A folder in which `ask` answers by the program that `rt ci` leaves: the scripts beside it read this file.
# shellcheck shell=sh

# Makes of the folder $2 a checkout of no crates, in which the program of the checkout $1 counts as built from its sources.
place_ask() {
    mkdir -p "$2/crates" "$2/out"
    cp "$1/ask" "$2/ask"
    cp -R "$1/scripts" "$2/scripts"
    cp "$1/crates/suit_bin/out/suit_bin" "$2/out/suit"
    echo 'suit_bin:' >"$2/crates.txt"
    (cd "$2" && . scripts/built.sh && { sum_of_sources; toolchain; } >out/built-from)
}
