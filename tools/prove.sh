#!/bin/sh
# Proves the crates that a program stands on, side by side, and builds it.
set -u
usage="usage: prove.sh NAME           proves what the program crates/NAME stands on, and builds it as crates/NAME/out/NAME
       prove.sh --list NAME    prints these crates, each with all that it stands on, in the order in which they begin

As many crates are proved at a time as there are processors and 3 GB of free memory for each, or as CONNECT_LANES says.
A crate begins when those that it stands on are proved, first the one with the longest way to the program: its proof goes
before the others, with as many jobs as crates are proved at a time, and the others fill what it leaves. rt keeps other
runs out of a crate and of all below it, so that each crate is proved in a tree of its own, of links to what it needs. Let
no other rt work in these crates meanwhile."

say() { printf 'connect: %s\n' "$1" >&2; }

# The lines of each crate, and then crates.txt, as crates_below reads them.
sizes() {
    for folder in "$top"/crates/*/; do
        echo "size $(basename "$folder") $(find "$folder" -name out -prune -o \( -name '*.rt' -o -name '*.antt' \) -exec cat {} + | wc -l)"
    done
    sed 's/#.*//' "$top/crates.txt"
}

crates_below() {
    sizes | awk -v program="$1" '
        $1 == "size" && NF == 3 { size[$2] = $3; next }
        /:/ { name = $1; sub(/:.*/, "", name); below = $0; sub(/[^:]*:/, "", below); deps[name] = below }
        # all below a crate, each after those that it stands on
        function visit(name,    list, count, d) {
            if (name in seen) return
            seen[name] = 1
            count = split(deps[name], list, " ")
            for (d = 1; d <= count; d++) if (list[d] in deps) visit(list[d])
            order[++n] = name
        }
        function all_below(name,    list, count, d, text) {
            delete seen; n = 0
            visit(name)
            for (d = 1; d < n; d++) text = text " " order[d]
            return text
        }
        END {
            if (!(program in deps)) exit 1
            count = split(all_below(program) " " program, all, " ")
            for (i = count; i > 0; i--) {
                way[all[i]] += size[all[i]]
                m = split(deps[all[i]], list, " ")
                for (d = 1; d <= m; d++) if (way[list[d]] < way[all[i]]) way[list[d]] = way[all[i]]
            }
            for (i = 1; i <= count; i++) print way[all[i]], all[i] all_below(all[i])
        }' | sort -rn -k1,1 | cut -d' ' -f2-
}

# How many proofs may run at a time.
lanes() {
    if [ "${CONNECT_LANES:-0}" -gt 0 ]; then echo "$CONNECT_LANES"; return; fi
    # (a control group may allow less memory than is free; "max" is no number and counts as none)
    limit=/sys/fs/cgroup/memory.max
    [ -r "$limit" ] || limit=
    awk -v most="$(nproc)" '
        FILENAME ~ /memory.max$/ && $1 > 0 { limit = int($1 / 3e9) }
        /^MemAvailable:/ { free = int($2 / 3e6) }
        END {
            if (free < most) most = free
            if (limit && limit < most) most = limit
            print (most > 1 ? most : 1)
        }' ${limit:+"$limit"} /proc/meminfo
}

# Makes the tree of a crate and the crates that it stands on, which are proved, and moves into it what the crate kept.
make_tree() {
    tree=$work/$1
    for each in "$@"; do
        mkdir -p "$tree/crates/$each/out" || return 1
        sed -n "/^${each}[ :]/p" "$top/crates.txt" >>"$tree/crates.txt"
        for part in src specs proofs; do
            [ ! -d "$top/crates/$each/$part" ] || cp -Rl "$top/crates/$each/$part" "$tree/crates/$each/" || return 1
        done
        [ "$each" = "$1" ] || cp -Rl "$top/crates/$each/out/rlib" "$tree/crates/$each/out/" || return 1
    done
    [ ! -d "$top/crates/$1/out" ] || { rmdir "$tree/crates/$1/out" && mv "$top/crates/$1/out" "$tree/crates/$1/out"; }
}

# Moves what the crate kept back to its place.
end_tree() {
    kept=$work/$1/crates/$1/out
    [ ! -d "$kept" ] || { rm -rf "$top/crates/$1/out" && mv "$kept" "$top/crates/$1/out"; }
    rm -rf "${work:?}/$1"
}

# The place of a crate in the list, which the longest way begins.
place_of() { awk -v name="$1" '$1 == name { print NR }' "$work/list"; }

# Whether the way of a crate is the longest of those that run.
is_front() { [ -z "$front" ] || [ "$(place_of "$1")" -lt "$(place_of "$front")" ]; }

# Starts the proof of a crate. Its end is told on 8. The one with the longest way goes before the others, whose memory two
# jobs each keep small.
start() {
    jobs=2 later=10
    if is_front "$1"; then front=$1 jobs=$lanes later=0; fi
    [ "$jobs" -le "$lanes" ] || jobs=$lanes
    running="$running $1"
    make_tree "$@" || { echo "$1 70" >&8; return; }
    (
        proof=
        trap 'kill "$proof" && wait "$proof"; exit' TERM
        cd "$work/$1/crates/$1" || exit
        nice -n "$later" rt lib --jobs "$jobs" >"$work/$1.log" 2>&1 </dev/null 8>&- &
        proof=$!
        wait "$proof"
        status=$?
        echo "$1 $status" >&8
    ) 2>/dev/null &
    echo "$!" >"$work/$1.pid"
}

# Ends the proofs that run, and puts what they kept back.
stop() {
    for each in $running; do
        kill "$(cat "$work/$each.pid" 2>/dev/null)" 2>/dev/null
    done
    wait
    for each in $running; do end_tree "$each"; done
    rm -rf "${work:?}"
}

is_among() { case " $2 " in *" $1 "*) return 0 ;; esac; return 1; }

# Whether all crates but the first, which is to be proved, are proved.
is_ready() {
    shift
    for each in "$@"; do is_among "$each" "$proved" || return 1; done
}

# The lines of the list whose crate waits for nothing.
ready() {
    while read -r crate below; do
        # shellcheck disable=SC2086
        ! is_among "$crate" "$started" && is_ready "$crate" $below && echo "$crate $below"
    done <"$work/list"
}

# Starts what is ready where a lane is free.
start_ready() {
    ready >"$work/ready"
    while [ "$free_lanes" -gt 0 ] && read -r crate below; do
        free_lanes=$((free_lanes - 1)) started="$started $crate"
        # shellcheck disable=SC2086
        start "$crate" $below
    done <"$work/ready"
}

# Takes in that a proof has ended.
take_in() {
    rest=
    for each in $running; do
        [ "$each" = "$1" ] || rest="$rest $each"
    done
    running=$rest free_lanes=$((free_lanes + 1))
    [ "$front" != "$1" ] || front=
    if [ "$2" -ne 0 ]; then
        say "$1 was not proved:"
        tail -n 20 "$work/$1.log" >&2
    fi
    end_tree "$1"
    [ "$2" -eq 0 ] || return 1
    proved="$proved $1" count=$((count + 1))
    say "proved $1 ($count of $total)"
}

prove_all() {
    crates_below "$name" | grep -v "^$name " >"$work/list"
    total=$(($(wc -l <"$work/list") + 1)) count=0 started='' proved='' running='' front='' lanes=$(lanes)
    free_lanes=$lanes
    mkfifo "$work/ends" && exec 8<>"$work/ends" && rm "$work/ends" || return 1
    while [ "$count" -lt $((total - 1)) ]; do
        start_ready
        [ -n "$running" ] || { say "crates.txt has a crate that waits for itself"; return 1; }
        read -r crate status <&8
        take_in "$crate" "$status" || return 1
    done
    exec 8>&-
}

# It runs once, on no words and no input, to be linked; what it says is not asked for.
link() {
    (cd "$top/crates/$name" && rt run) >"$top/crates/$name/out/log" 2>&1 </dev/null
    [ -x "$top/crates/$name/out/$name" ] || {
        say "$name was not proved:"
        tail -n 20 "$top/crates/$name/out/log" >&2
        return 1
    }
    say "proved $name ($total of $total)"
}

main() {
    top=$(CDPATH='' cd -- "$(dirname -- "$0")/.." && pwd -P) || return 1
    case ${1:-} in
        --list) [ $# = 2 ] && crates_below "$2" && return 0 || return 1 ;;
        -h | --help) echo "$usage"; return 0 ;;
        '' | -*) echo "$usage" >&2; return 2 ;;
    esac
    name=$1 work=$top/crates/$1/out/work running=
    # What a run that was killed has left is put back.
    for tree in "$work"/*/; do [ ! -d "$tree" ] || end_tree "$(basename "$tree")"; done
    rm -rf "${work:?}" && mkdir -p "$work" || return 1
    rm -f "$top/crates/$name/out/$name"
    trap 'stop; trap - INT; kill -INT $$' INT
    trap 'stop; exit 143' TERM HUP
    prove_all || { stop; return 1; }
    rm -rf "${work:?}"
    link
}

main "$@"
