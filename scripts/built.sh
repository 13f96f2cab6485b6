# Whether the program stands and was built from these sources: read by `suit` and `ask` at the top of the checkout.
# shellcheck shell=sh

# The sources, or what `find` is to tell of each.
sources() {
    [ $# -gt 0 ] || set -- -print
    find crates.txt crates \( -name out -o -name must-fail \) -prune -o \
        -type f \( -name '*.rt' -o -name '*.antt' -o -name crates.txt \) "$@" | LC_ALL=C sort
}

# One number for the names and the contents of all sources.
sum_of_sources() {
    sources | xargs cksum | cksum
}

# One number for the sources as the file system has them: each file's number, size and change time, which no program can set.
stamp_of_sources() {
    sources -printf '%i %s %C@ %p\n' 2>/dev/null | cksum
}

# The number of all sources, without reading them where none was touched since out/stamp was written. A change just before they were
# read may share its time with what was read, so where a source is less than two seconds older than that nothing is kept.
sum_of_touched_sources() {
    stamp=$(stamp_of_sources)
    if [ -f out/stamp ] && { read -r stamped && read -r sum; } <out/stamp && [ "$stamped" = "$stamp" ]; then
        echo "$sum"
        return
    fi
    begun=$(date +%s)
    sum=$(sum_of_sources)
    echo "$sum"
    newest=$(sources -printf '%C@\n' 2>/dev/null | cut -d . -f 1 | sort -n | tail -n 1)
    if [ -n "$newest" ] && [ "$newest" -lt $((begun - 2)) ] && [ "$stamp" = "$(stamp_of_sources)" ]; then
        printf '%s\n%s\n' "$stamp" "$sum" >"out/stamp.$$" 2>/dev/null && mv "out/stamp.$$" out/stamp
    fi
}

# What tells one toolchain from another, or nothing where there is none.
toolchain() {
    rt=$(command -v rt) || return 0
    folder=$(readlink -f "$rt")
    identity=${folder%/*/*}/KIT-ID
    if [ -f "$identity" ]; then cksum <"$identity"; else rt version; fi
}

# Whether the program stands and was built from these sources, by this toolchain where there is one.
is_built() {
    [ -x out/suit ] && [ -f out/built-from ] || return 1
    [ "$(sed -n 1p out/built-from)" = "$(sum_of_touched_sources)" ] || return 1
    now=$(toolchain)
    [ -z "$now" ] || [ "$(sed -n 2p out/built-from)" = "$now" ]
}
