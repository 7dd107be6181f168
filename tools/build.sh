# shellcheck shell=sh disable=SC2154
# The slow half of ./connect, which reads this file where the program isn't there or something has changed.
# It uses of ./connect: here, place, program, record, say, is_current.

# Ends with 0 where the program is there and was built from what is there now.
build() {
    began=
    [ ! -d "$place" ] || began=yes
    [ "$began" ] || has_toolchain || return 1
    mkdir -p "$place" || return 1
    # (a redirection of exec that fails would end the shell with another number)
    (: >>"$place/lock") 2>/dev/null || { say "$place can't be written"; return 1; }
    command -v flock >/dev/null || { say "the command flock was not found"; return 1; }
    exec 9>"$place/lock"
    # The lock is let go when the last process that holds it ends, however it ends: a moment after an interrupt, too.
    flock -w 1 9 || { say "another call builds the program: waiting for it"; flock 9; }
    is_current || is_the_same || build_anew "$began" || { exec 9>&-; return 1; }
    exec 9>&-
}

# The folders of the crates that the program is made of.
source_folders() { "$here/tools/prove.sh" --list connect | sed 's,^\([^ ]*\).*,crates/\1,' | tr '\n' ' '; }

# A digest of all sources in these folders and of crates.txt.
sources_digest() {
    # shellcheck disable=SC2086
    (cd -- "$here" && find crates.txt $1 \( -name out -o -name must-fail \) -prune -o -type f \
        \( -name '*.rt' -o -name '*.antt' -o -name crates.txt \) -print |
        LC_ALL=C sort | tr '\n' '\0' | xargs -0 sha256sum | sha256sum | cut -d' ' -f1)
}

program_digest() { sha256sum <"$program" | cut -d' ' -f1; }

has_toolchain() { command -v rt >/dev/null || { say "the toolchain's command rt was not found"; return 1; }; }

toolchain() { rt version | head -n 1; }

# Writes what the program was built from: the place of rt, its version, the digest and the folders.
write_record() {
    inode=$(find -H "$1" -prune -printf '%i' 2>/dev/null)
    printf '%s\n' "$1" "${inode:-0}" "$2" "$3" "$4" >"$record.new" &&
        touch -r "$place/moment" "$record.new" && mv -f -- "$record.new" "$record"
}

# A moment that lies a little back, since a change may be dated by the same tick of the clock.
take_moment() { touch -d '1 second ago' "$place/moment" 2>/dev/null || touch "$place/moment"; }

# Whether the program and what it was built from are the same, although the files are newer than the record.
is_the_same() {
    [ -x "$program" ] && [ -r "$record" ] || return 1
    { read -r rt; read -r _; read -r version; read -r digest; read -r _; } <"$record" || return 1
    take_moment
    # (a program that is built needs no toolchain)
    if now=$(command -v rt); then rt=$now && [ "$(toolchain)" = "$version" ] || return 1; fi
    folders=$(source_folders) || return 1
    [ "$(sources_digest "$folders") $(program_digest)" = "$digest" ] && write_record "$rt" "$version" "$digest" "$folders"
}

# What is told of a build, by the program's record.
reason() {
    if [ -z "$1" ]; then
        echo "the first use proves and builds the program: a quarter of an hour to half an hour on four processors, and later only what a change touches"
    elif [ ! -r "$record" ]; then
        echo "no finished build is here, since an earlier one was stopped or failed: what is left is proved now"
    elif { read -r _; read -r _; read -r version; } <"$record" && [ "$version" != "$2" ]; then
        echo "the toolchain was $version and is $2: the program is proved and built anew"
    else
        echo "the sources have changed since the program was built: what they touch is proved anew"
    fi
}

build_anew() {
    has_toolchain && current=$(toolchain) || return 1
    say "$(reason "$1" "$current")"
    # From here on no older program is there, whatever happens.
    rm -f -- "$program" "$record" || return 1
    folders=$(source_folders) && before=$(sources_digest "$folders") || return 1
    # An interrupt ends the proofs, which put away what they have begun, and only then this call.
    trap : INT
    "$here/tools/prove.sh" connect
    status=$?
    trap - INT
    [ "$status" -ne 130 ] || kill -INT $$
    [ "$status" -eq 0 ] || return 1
    take_moment
    if [ "$(sources_digest "$folders")" != "$before" ]; then
        rm -f -- "$program"
        say "the sources changed while they were proved: call again"
        return 1
    fi
    write_record "$(command -v rt)" "$current" "$before $(program_digest)" "$folders"
}
