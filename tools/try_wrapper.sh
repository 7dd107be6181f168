#!/bin/sh
# Tries ./connect and tools/prove.sh against a stand-in for rt, in a temporary folder.
set -u
usage="usage: try_wrapper.sh

Makes a small repository whose crates are proved by a stand-in that sleeps, fails or builds on demand, and says of each
thing that ./connect has to do whether it does. Ends with 0 where all are as wanted, else with 1."
case ${1:-} in
    '') ;;
    -h | --help) echo "$usage"; exit 0 ;;
    *) echo "$usage" >&2; exit 2 ;;
esac
top=$(CDPATH='' cd -- "$(dirname -- "$0")/.." && pwd -P)
room=$(mktemp -d) || exit 1
trap 'rm -rf "$room"' EXIT
trap 'exit 130' INT TERM
# (a blank in the path has to do no harm)
repository="$room/a clone"
export FAKE="$room/fake"
failed=0 tried=0

# ---- the stand-in: rt version, rt lib and rt run

make_rt() {
    mkdir -p "$1"
    cat >"$1/rt" <<'END'
#!/bin/sh
# The stand-in. A crate whose text has not changed since its proof is kept, as rt does.
crate=$(basename "$PWD")
tell() { echo "$1 $crate $(date +%s%N)" >>"$FAKE/log"; }
case $1 in
    version) cat "$FAKE/version"; exit ;;
    lib)
        for each in ../*/; do
            [ "$each" = "../$crate/" ] || [ -f "$each/out/rlib/stamp" ] || { echo "$each is not built"; exit 2; }
        done ;;
esac
digest=$(cat ../*/src/* ../*/specs/* ../../crates.txt "$FAKE/version" 2>/dev/null | cksum)
[ "$(cat out/rlib/stamp 2>/dev/null)" = "$digest" ] && [ "$1" = lib -o -x out/connect ] && { tell kept; exit 0; }
rm -rf out/rlib
tell begin
sleep "$(cat "$FAKE/seconds")"
tell end
[ "$(cat "$FAKE/bad" 2>/dev/null)" != "$crate" ] || { echo "the goal of $crate is open"; exit 1; }
mkdir -p out/rlib out/incremental
echo "$crate" >out/incremental/work
echo "$digest" >out/rlib/stamp
[ "$1" = run ] || exit 0
printf '#!/bin/sh\necho "of %s"\necho "words $*"\ncat\nexit "${2:-0}"\n' "$(cat ../low/src/lib.rt)" >out/connect
chmod +x out/connect
./out/connect
END
    chmod +x "$1/rt"
}

make_repository() {
    mkdir -p "$repository/tools" "$FAKE"
    cp -p "$top/connect" "$repository/"
    cp -p "$top/tools/build.sh" "$top/tools/prove.sh" "$repository/tools/"
    for crate in low other left right apart connect low_tests; do
        mkdir -p "$repository/crates/$crate/src" "$repository/crates/$crate/specs"
        echo "$crate one" >"$repository/crates/$crate/src/lib.rt"
        echo "$crate" >"$repository/crates/$crate/specs/Lib.antt"
    done
    cat >"$repository/crates.txt" <<'END'
# The order is free.
connect: left right apart kit
left: low other
low:
right: low
other:
apart:
low_tests: low
END
    echo "kit one" >"$FAKE/version"
    echo 0 >"$FAKE/seconds"
    : >"$FAKE/log"
    make_rt "$room/bin"
}

# ---- what is seen

# Calls ./connect with the words. What it writes is in out and err, its status in status.
call() {
    : >"$FAKE/log"
    "$repository/connect" "$@" >"$room/out" 2>"$room/err" </dev/null
    status=$?
}

want() { # TITLE and a command that has to succeed
    title=$1
    shift
    tried=$((tried + 1))
    if "$@"; then echo "as wanted: $title"; else
        failed=$((failed + 1))
        echo "NOT AS WANTED: $title (status $status)"
        sed 's/^/    /' "$room/out" "$room/err" "$FAKE/log"
    fi
}

answers() { [ "$status" = 0 ] && grep -q "^of $1\$" "$room/out"; }
is_silent() { [ ! -s "$room/err" ]; }
says() { grep -q "$1" "$room/err"; }
proves() { [ "$(awk '$1 == "begin" { print $2 }' "$FAKE/log" | sort | tr '\n' ' ')" = "$1" ]; }
calls_nothing() { [ ! -s "$FAKE/log" ] && is_silent; }
is_refused() { [ "$status" = 70 ] && [ ! -s "$room/out" ] && [ ! -e "$repository/crates/connect/out/connect" ]; }
is_clean() { [ ! -e "$repository/crates/connect/out/work" ]; }
both() { "$1" "$2" && "$3" "$4"; }

# Whether two proofs of the log ran at the same time.
overlaps() {
    sort -k3,3n "$FAKE/log" | awk '$1 == "begin" && ++running > 1 { found = 1 } $1 == "end" { running-- } END { exit !found }'
}
never_overlaps() { ! overlaps; }

later() { sleep 1.1; } # (a change within a second of the record is looked at once more, which is right but not silent)

# ---- what is tried

try_first_use() {
    PATH=/usr/bin:/bin call flow
    want "with no rt nothing is built" both says "rt was not found" is_refused ''
    call flow
    want "the first use says so and answers" both says "the first use" answers "low one"
    want "it proves what the program stands on, and no tests' crate" proves "apart connect left low other right "
    want "no folder of the build is left" is_clean
    later
    call flow
    want "the next call only runs the program" both answers "low one" calls_nothing ''
    call words 6
    want "the program's status is passed on" test "$status" = 6
    echo text | "$repository/connect" flow 0 >"$room/out" 2>"$room/err"
    want "so is its input" grep -q "^text$" "$room/out"
    want "and its words" grep -q "^words flow 0$" "$room/out"
}

try_places() {
    (cd / && "$repository/connect" here) >"$room/out" 2>"$room/err" </dev/null
    want "it works from another folder" grep -q "^words here" "$room/out"
    (cd "$repository" && ./connect here && sh connect here) >"$room/out" 2>"$room/err" </dev/null
    want "and from its own" test "$(grep -c "^words here" "$room/out")" = 2
    mkdir -p "$room/links" && ln -sf "../a clone/connect" "$room/links/first" && ln -sf first "$room/links/second"
    (cd "$room" && links/second here) >"$room/out" 2>"$room/err" </dev/null
    want "it works through symbolic links" grep -q "^words here" "$room/out"
    (cd / && PATH="$room/links:$PATH" second here) >"$room/out" 2>"$room/err" </dev/null
    want "and found by PATH" grep -q "^words here" "$room/out"
    want "with no message" is_silent
}

try_wrong_places() {
    cp "$repository/connect" "$room/connect"
    "$room/connect" flow >"$room/out" 2>"$room/err" </dev/null
    status=$?
    want "a copy of the script alone ends with 70" both says "no clone of the repository" test "$status" = 70
    mv "$repository/crates/connect/out" "$room/kept" && : >"$repository/crates/connect/out"
    call flow
    want "so does one that can't write its files" test "$status" = 70
    rm "$repository/crates/connect/out" && mv "$room/kept" "$repository/crates/connect/out"
    call flow
    want "and once it can there is an answer" answers "low one"
}

try_changes() {
    echo "low two" >"$repository/crates/low/src/lib.rt"
    call flow
    want "a changed source builds anew and says so" both says "sources have changed" answers "low two"
    want "what stands on it is proved anew, and nothing else" proves "connect left low right "
    echo "low three" >"$room/old" && touch -d 2001-01-01 "$room/old" && cp -p "$room/old" "$repository/crates/low/src/lib.rt"
    call flow
    want "so does a source that came with an old date" answers "low three"
    rm "$repository/crates/right/specs/Lib.antt"
    call flow
    want "so does a deleted source" both says "sources have changed" proves "connect right "
    echo more >"$repository/crates/right/specs/More.antt"
    call flow
    want "and a new one" both says "sources have changed" proves "connect right "
    mkdir "$repository/crates/right/proofs" && echo new >"$repository/crates/right/proofs/New.antt"
    call flow
    want "also where its folder is new" says "sources have changed"
    later
    touch "$repository/crates/low/src/lib.rt"
    call flow
    want "a source that was only touched doesn't" both answers "low three" calls_nothing ''
    echo "changed" >"$repository/crates/low_tests/src/lib.rt"
    call flow
    want "nor does a changed crate of tests" both answers "low three" calls_nothing ''
    echo "# more" >>"$repository/crates.txt"
    call flow
    want "a changed crates.txt builds anew" both says "sources have changed" answers "low three"
}

try_toolchains() {
    echo "kit two" >"$FAKE/version" && make_rt "$room/bin"
    call flow
    want "another toolchain builds anew and says which" both says "kit one and is kit two" answers "low three"
    want "and proves all" proves "apart connect left low other right "
    later
    make_rt "$room/bin2"
    PATH="$room/bin2:$PATH" call flow
    want "the same toolchain in another place doesn't" both answers "low three" proves ''
    touch "$repository/crates/low/src/lib.rt"
    PATH=/usr/bin:/bin call flow
    want "nor does none" both answers "low three" calls_nothing ''
}

try_failures() {
    echo right >"$FAKE/bad" && echo "right two" >"$repository/crates/right/src/lib.rt"
    call flow
    want "a failed proof ends with 70 and leaves no program" is_refused
    want "and says where" both says "right was not proved" says "goal of right is open"
    want "with no folder left" is_clean
    call flow
    want "so does the next call" both says "an earlier one was stopped or failed" is_refused ''
    rm "$FAKE/bad"
    call flow
    want "once it is proved there is an answer" both answers "low three" proves "connect right "
    sed -i 's/^echo "of .*/echo "of another"/' "$repository/crates/connect/out/connect"
    call flow
    want "a program that rt did not build here is never run" answers "low three"
    echo connect >"$FAKE/bad" && echo "connect two" >"$repository/crates/connect/src/lib.rt"
    call flow
    want "a program that isn't proved ends with 70, too" both says "connect was not proved" is_refused ''
    rm "$FAKE/bad"
    call flow
    want "and is built once it is" answers "low three"
}

try_side_by_side() {
    echo 0.5 >"$FAKE/seconds" && echo "low four" >"$repository/crates/low/src/lib.rt"
    CONNECT_LANES=3 call flow
    want "proofs run side by side" both answers "low four" overlaps ''
    echo "low five" >"$repository/crates/low/src/lib.rt"
    CONNECT_LANES=1 call flow
    want "in one lane they don't" both answers "low five" never_overlaps ''
    echo "low six" >"$repository/crates/low/src/lib.rt" && : >"$FAKE/log"
    "$repository/connect" flow >"$room/out1" 2>"$room/err1" </dev/null &
    sleep 0.3
    "$repository/connect" flow >"$room/out" 2>"$room/err" </dev/null
    status=$?
    wait
    want "a second call waits for the first and says so" both says "waiting for it" answers "low six"
    want "the first answers" grep -q "^of low six$" "$room/out1"
    want "and nothing is proved twice" proves "connect left low right "
    echo "low seven" >"$repository/crates/low/src/lib.rt" && : >"$FAKE/log"
    "$repository/connect" flow >"$room/out" 2>"$room/err" </dev/null &
    sleep 0.9
    echo "low eight" >"$repository/crates/low/src/lib.rt"
    wait $!
    status=$?
    want "where the sources change meanwhile, no program is left" is_refused
    call flow
    want "and the next call builds it" answers "low eight"
}

# Calls ./connect as a group of its own and ends it by a signal in the midst of a build.
end_by() {
    : >"$FAKE/log"
    setsid sh -c 'trap - INT; "$0" flow & echo $! >"$1"; wait $!' "$repository/connect" "$room/pid" >"$room/out" 2>"$room/err" </dev/null &
    sleep 0.4
    kill "-$1" "$2$(cat "$room/pid")"
    sleep 1.2
}

try_ends() {
    echo "low nine" >"$repository/crates/low/src/lib.rt"
    : >"$FAKE/log"
    python3 -c '
import os, signal, subprocess, sys, time
signal.signal(signal.SIGINT, signal.default_int_handler)
run = subprocess.Popen([sys.argv[1], "flow"], stdout=subprocess.DEVNULL, stderr=subprocess.DEVNULL, start_new_session=True)
time.sleep(0.4)
os.killpg(run.pid, signal.SIGINT)
sys.exit(run.wait(5) != -signal.SIGINT)' "$repository/connect"
    status=$?
    want "an interrupt ends the build" test "$status" = 0
    want "and leaves no folder and no program" is_clean
    want "but what was kept" test -f "$repository/crates/low/out/incremental/work"
    call flow
    want "the next call needs not wait" answers "low nine"
    want "and says nothing of a lock" test "$(grep -c waiting "$room/err")" = 0
    echo "low ten" >"$repository/crates/low/src/lib.rt"
    end_by KILL ''
    call flow
    want "nor after the wrapper was killed" answers "low ten"
    want "with what was kept in its place" both is_clean '' test -f "$repository/crates/low/out/incremental/work"
}

tell_time() {
    later
    call flow
    began=$(date +%s%N)
    for _ in 1 2 3 4 5 6 7 8 9 10; do
        for _ in 1 2 3 4 5 6 7 8 9 10; do "$repository/connect" flow >/dev/null </dev/null; done
    done
    middle=$(date +%s%N)
    for _ in 1 2 3 4 5 6 7 8 9 10; do
        for _ in 1 2 3 4 5 6 7 8 9 10; do "$repository/crates/connect/out/connect" flow >/dev/null </dev/null; done
    done
    ended=$(date +%s%N)
    echo "a call costs $(((2 * middle - began - ended) / 100000)) microseconds more than the program itself"
}

make_repository
export PATH="$room/bin:$PATH"
status=0
try_first_use
try_places
try_wrong_places
try_changes
try_toolchains
try_failures
try_side_by_side
try_ends
tell_time
echo "$tried tried, $failed not as wanted"
[ "$failed" = 0 ]
