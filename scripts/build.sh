# The building of the program, crates side by side along crates.txt. The launcher reads this file at the top of the checkout, and has
# `say` and the folder with the sources, `root`. Each crate has its log in out/build/, and out/build.log has them all.
# shellcheck shell=sh

# The least memory for one crate: 4 GB, in kilobytes of 1,024 bytes.
CRATE_MEMORY=3906250

# The crates that the program stands on, those with the longest chain above them first: a line has the name, its seconds, the seconds
# of the chain from it to the program, and the crates below it. crates.txt has the lower ones first.
crates_needed() {
    awk 'FILENAME == "scripts/seconds" { if ($0 !~ /^#/) seconds[$1] = $2; next }
        /^[^#]/ {
            colon = index($0, ":")
            split(substr($0, 1, colon - 1), head, " ")
            name[++count] = head[1]
            last = split(substr($0, colon + 1), below, " ")
            for (at = 1; at <= last; at++) uses[head[1], below[at]] = 1
        }
        END {
            needed["suit_bin"] = 1
            for (at = count; at > 0; at--) {
                this = name[at]
                if (!needed[this]) continue
                if (!(this in seconds)) seconds[this] = 60
                chain[this] += seconds[this]
                line = ""
                for (low = 1; low < at; low++) if ((this, name[low]) in uses) {
                    needed[name[low]] = 1
                    line = line " " name[low]
                    if (chain[name[low]] < chain[this]) chain[name[low]] = chain[this]
                }
                lines[this] = line
            }
            for (at = 1; at <= count; at++) if (needed[name[at]])
                print name[at], seconds[name[at]], chain[name[at]] lines[name[at]]
        }' scripts/seconds crates.txt | sort -k 3,3nr
}

# How many crates are built at once: as many as there are processors, and 4 GB of memory for each.
most_at_once() {
    processors=$(nproc 2>/dev/null) || processors=$(getconf _NPROCESSORS_ONLN 2>/dev/null) || processors=1
    memory=$(awk '/^MemTotal:/ { print $2 }' /proc/meminfo 2>/dev/null)
    room=$((${memory:-CRATE_MEMORY} / CRATE_MEMORY))
    [ "$room" -lt "$processors" ] || room=$processors
    [ "$room" -gt 0 ] || room=1
    echo "$room"
}

minutes_and_seconds() {
    echo "$(($1 / 60)) min $(($1 % 60)) s"
}

# About how many seconds are left: what the crates took that are built tells how fast this machine is. What is left is shared by all
# places, and no shorter than the longest chain of what is left.
seconds_left() {
    awk -v places="$places" -v now="$(date +%s)" '
        FILENAME == "out/build/ended" { ended[$1] = 1; took += $2; next }
        FILENAME == "out/build/started" { started[$1] = $2; next }
        { seconds[$1] = $2; chain[$1] = $3; if ($1 in ended) expected += $2 }
        END {
            rate = expected > 0 && took > 0 ? took / expected : 1
            for (crate in seconds) if (!(crate in ended)) {
                past = crate in started ? (now - started[crate]) / rate : 0
                if (past > seconds[crate]) past = seconds[crate]
                left += seconds[crate] - past
                if (longest < chain[crate] - past) longest = chain[crate] - past
            }
            if (longest < left / places) longest = left / places
            printf "%d\n", longest * rate + 0.5
        }' out/build/ended out/build/started out/build/plan
}

tell_progress() {
    past=$(minutes_and_seconds $(($(date +%s) - begun)))
    say "$count of $total crates built after $past, about $(minutes_and_seconds "$(seconds_left)") to go ($crate)"
}

# Starts a crate in a process group of its own, where there is a command for that, so that all of it can be ended. When it is over it
# says so in the pipe: its name, its status and its group.
start_crate() {
    echo "$1 $(date +%s)" >>out/build/started
    # shellcheck disable=SC2016
    $own sh -c '
        if cd "$1"; then
            if [ "$2" = suit_bin ]; then
                rm -f out/suit_bin
                rt run 8>&-
                [ -x out/suit_bin ]
            else
                rt lib 8>&-
            fi
        fi
        echo "$2 $? $$" >&8' sh "$root/crates/$1" "$1" </dev/null >"out/build/$1.log" 2>&1 &
    jobs="$jobs $!"
    running=$((running + 1))
}

# Starts crates below which all is built, while there are places.
start_ready() {
    while [ "$running" -lt "$places" ]; do
        ready=$(awk 'FILENAME == "out/build/ended" { ended[$1] = 1; next }
            FILENAME == "out/build/started" { started[$1] = 1; next }
            { due = !($1 in started)
              for (at = 4; at <= NF; at++) if (!($at in ended)) due = 0
              if (due) { print $1; exit } }' out/build/ended out/build/started out/build/plan)
        [ -n "$ready" ] || return 0
        start_crate "$ready"
    done
}

# Ends all that was started and is not over.
end_jobs() {
    for job in $jobs; do
        kill -s TERM -- "-$job" 2>/dev/null || kill -s TERM "$job" 2>/dev/null
    done
    jobs=
}

# Notes that a crate is over: its name, its status and its group.
note_end() {
    left=
    for job in $jobs; do
        [ "$job" = "$3" ] || left="$left $job"
    done
    jobs=$left
    running=$((running - 1))
    awk -v name="$1" -v now="$(date +%s)" '$1 == name { print name, now - $2 }' out/build/started >>out/build/ended
    cat "out/build/$1.log" >>out/build.log
    [ "$2" -eq 0 ]
}

build_failed() {
    end_jobs
    say "the build stopped at $1; its log is out/build/$1.log"
    grep -n -A 4 -i -E 'error|is not proved|no proof' "out/build/$1.log" | head -n 24 >&2
    exit 70
}

# Builds every crate that the program stands on.
build_all() {
    begun=$(date +%s)
    rm -rf out/build
    if ! mkdir -p out/build || ! mkfifo out/build/pipe; then
        say 'nothing can be written to out/, so nothing was built'
        exit 70
    fi
    : >out/build.log
    : >out/build/started
    : >out/build/ended
    crates_needed >out/build/plan
    total=$(($(wc -l <out/build/plan)))
    places=$(most_at_once)
    own=
    ! command -v setsid >/dev/null || own=setsid
    jobs=
    running=0
    trap 'end_jobs; exit 129' HUP
    trap 'end_jobs; exit 130' INT
    trap 'end_jobs; exit 131' QUIT
    trap 'end_jobs; exit 143' TERM
    exec 8<>out/build/pipe
    say "building $total crates, up to $places at once, about $(minutes_and_seconds "$(seconds_left)")"
    count=0
    start_ready
    while [ "$running" -gt 0 ] && read -r crate ended group <&8; do
        note_end "$crate" "$ended" "$group" || build_failed "$crate"
        count=$((count + 1))
        start_ready
        tell_progress
    done
    exec 8>&-
    trap - HUP INT QUIT TERM
    [ "$count" -eq "$total" ] || build_failed suit_bin
}
