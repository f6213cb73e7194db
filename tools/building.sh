# shellcheck shell=bash
# What the scripts that build have in common; they are to set `name`, which begins each line that they say, and `root`.

child=
clock=
# what the line of an interrupt says further
kept=

say() { printf "$name: %s\n" "$@" >&2; }

fail() {
    say "$@"
    exit 3
}

need() {
    local word of
    for word; do
        of=
        [ "$word" = rt ] && of=", the command of the Rattle kit,"
        command -v "$word" >/dev/null || fail "\`$word\`$of is not on the PATH"
    done
}

# Ends the command that was started; rt ends all that it started itself.
stop() {
    trap '' INT TERM HUP
    [ -z "$child" ] || { kill -TERM "$child" && wait "$child"; } 2>/dev/null
    stop_clock
    say "interrupted$kept"
    exit "$1"
}

# Has signals end the script with what it started.
stop_on_signals() {
    trap 'stop 130' INT
    trap 'stop 143' TERM
    trap 'stop 129' HUP
}

# Says every minute how long something takes already, as long as this script is there.
count_minutes() {
    local minutes=0
    while sleep 60 >/dev/null 2>&1 && kill -0 $$ 2>/dev/null; do
        minutes=$((minutes + 1))
        say "$(date +%H:%M:%S) $1: $minutes min so far"
    done
}

stop_clock() {
    [ -z "$clock" ] || { kill "$clock" && wait "$clock"; } 2>/dev/null
    clock=
}

# Runs a command with its output at the end of a log, and says each minute that it runs; an interrupt ends it.
run() {
    local log=$1 what=$2 status
    shift 2
    count_minutes "$what" &
    clock=$!
    "$@" >>"$log" 2>&1 &
    child=$!
    wait "$child"
    status=$?
    child=
    stop_clock
    return "$status"
}

# A crate and those below it, lowest first.
crates() {
    awk -F: -v crate="$1" '{ split($1, word, " ") }
        word[1] == crate { n = split($2, name, " "); for (i = n; i > 0; i--) print name[i]; print crate }' \
        "$root/crates.txt" | while read -r name; do [ -d "$root/crates/$name" ] && echo "$name"; done
}

# Whether a file is there, and newer than these folders of a crate and of those below it.
is_newer() {
    local file=$1 crate=$2 one part sources=("$root/crates.txt")
    shift 2
    [ -f "$file" ] || return 1
    for one in $(crates "$crate"); do
        for part; do
            [ ! -e "$root/crates/$one/$part" ] || sources+=("$root/crates/$one/$part")
        done
    done
    [ -z "$(find "${sources[@]}" -newer "$file" -print -quit)" ]
}
