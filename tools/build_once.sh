# shellcheck shell=bash
# What the scripts around a built file share: streams that are open, programs that a build needs, and the build. A file is built only
# where it is not up to date, one build runs at a time, and interrupting a build ends what it started.
# Sourced by its path, from which `root`, the repository, is known. `script` is the name of the script in its messages.
root=${BASH_SOURCE[0]%/tools/build_once.sh}
script=$(readlink -f "$0") script=${script##*/}

# What each program that a script needs is for.
declare -A purposes=(
    [rt]="Rattle's toolchain, which proves and compiles"
    [ar]="it puts the library together (Debian's package binutils)"
    [cargo]='it builds the programs in Rust'
    [gnuplot]="it draws the picture (Debian's package gnuplot-nox)"
)

# say TEXT [NAME]: a message that cannot be written leaves the exit status as it is.
say() {
    (trap '' PIPE && printf '%s: %s\n' "${2-$script}" "$1" >&2) || true
}

fail() {
    say "$1"
    exit 2
}

# check_streams READS WRITES: fails where a stream that is read or written, as true or false says, is closed. Any stream that is
# closed would be taken by the next file that is opened.
check_streams() {
    [ -e /dev/fd/2 ] || exec 2> /dev/null
    [ -e /dev/fd/1 ] || ! "$2" || fail 'standard output cannot be written: it is closed'
    [ -e /dev/fd/1 ] || exec > /dev/null
    [ -e /dev/fd/0 ] || ! "$1" || fail 'standard input cannot be read: it is closed'
    [ -e /dev/fd/0 ] || exec < /dev/null
}

# cargo_fits: whether cargo is of the version that tools/Cargo.toml asks for, or a later one; if not, that is said.
cargo_fits() {
    local version least major minor
    version=$(cd "$root/tools" && cargo --version 2> /dev/null)
    [[ $(< "$root/tools/Cargo.toml") =~ rust-version\ =\ \"([0-9]+)\.([0-9]+) ]]
    least=${BASH_REMATCH[1]}.${BASH_REMATCH[2]} major=${BASH_REMATCH[1]} minor=${BASH_REMATCH[2]}
    if ! [[ $version =~ ^cargo\ ([0-9]+)\.([0-9]+) ]]; then
        say "cargo does not tell its version, and building the programs in Rust needs $least or later"
    elif [ $((BASH_REMATCH[1] * 10000 + BASH_REMATCH[2])) -ge $((major * 10000 + minor)) ]; then
        return
    else
        say "cargo has the version ${BASH_REMATCH[1]}.${BASH_REMATCH[2]}, and building the programs in Rust needs $least or later"
    fi
    return 1
}

# check_needs PROGRAM..: looks for all of them, and says of each that is missing what it is for.
check_needs() {
    local need all=true
    for need in "$@"; do
        if ! command -v "$need" > /dev/null; then
            say "$need is not on the path: ${purposes[$need]}"
            all=false
        elif [ "$need" = cargo ] && ! cargo_fits; then
            all=false
        fi
    done
    "$all"
}

# up_to_date NAME FILE SOURCE..: the file is there, and no source is newer than the start of its last build that went well. A crate's
# out/ is no source, and rt makes it in the crate's own directory.
up_to_date() (
    built=target/$1.built file=$2
    shift 2
    cd "$root" && [ -e "$file" ] && [ -e "$built" ] &&
        newer=$(find "$@" -regex 'crates/[^/]*/out' -prune -o ! -regex 'crates/[^/]*' -newer "$built" -print -quit 2> /dev/null) && [ -z "$newer" ]
)

# run_group COMMAND..: runs a command in a process group of its own, and waits for it.
run_group() {
    local ended=0
    set -m
    "$@" < /dev/null >&2 &
    set +m
    wait "$!" || ended=$?
    return "$ended"
}

# keep_log FILE: keeps what comes, and shows rt's own lines as they come, one for each crate.
keep_log() {
    local line
    trap '' PIPE
    while IFS= read -r line; do
        printf '%s\n' "$line"
        [[ $line != rt:* ]] || printf '%s\n' "$line" >&2 || true
    done > "$1"
}

# in_repository LOG COMMAND..: the lock is not lent to the command, which may leave processes behind.
in_repository() {
    exec 9<&-
    set -o pipefail
    cd "$root" && "${@:2}" 2>&1 | keep_log "$1"
}

# interrupted SIGNAL: ends the process group that runs, then the script, by the same signal. A command in the background, as rt has
# them, ignores Ctrl-C, so that all of the group are sent another signal.
interrupted() {
    local group
    trap '' INT TERM HUP
    trap - EXIT
    for group in $(jobs -p); do
        {
            kill -TERM -- "-$group" && wait "$group"
            kill -KILL -- "-$group"
        } 2> /dev/null || true
    done
    say 'interrupted while it was built; the next run builds again'
    trap - "$1"
    kill -s "$1" "$$"
}

# Another run may have built the file while this one waited for the lock. The lock is on crates.txt, which rt does not lock.
build_under_lock() {
    local name=$1 file=$2 sources=$3 building=$root/target/$1.building built=$root/target/$1.built log=$root/target/$1.log
    shift 3
    exec 9< "$root/crates.txt" && run_group flock 9 || return
    # shellcheck disable=SC2086
    up_to_date "$name" "$file" $sources && return
    mkdir -p "$root/target" && rm -f "$built" && touch "$building" || return
    run_group in_repository "$log" "$@" || {
        cat "$log" >&2
        return 1
    }
    mv "$building" "$built"
}

# build_once NAME FILE SOURCES COMMAND..: runs a command in the repository that makes the file, unless it is up to date.
# SOURCES are files and directories with a space between them.
build_once() {
    local signal ended=0
    # shellcheck disable=SC2086
    up_to_date "$1" "$2" $3 && return
    for signal in INT TERM HUP; do
        # shellcheck disable=SC2064
        trap "interrupted $signal" "$signal"
    done
    say 'building it first, which takes some minutes where it must be proved' "$1"
    build_under_lock "$@" || ended=1
    exec 9<&-
    trap - INT TERM HUP
    [ "$ended" = 0 ] || say 'it was not built; what went wrong stands above' "$1"
    return "$ended"
}
