# shellcheck shell=bash
# What the tests of the scripts share: a scratch directory, and runs whose exit status, output and errors are expected.
# Some runs are made as nobody, who must be able to read what is made for them.
umask 022
scratch=$(mktemp -d)
trap 'chmod -R u+w "$scratch" && rm -rf "$scratch"' EXIT
chmod 711 "$scratch"
runs=0

# check STATUS OUT ERR ENDED K WHAT: the run K ended so and wrote this to standard output and standard error.
check() {
    if [ "$4" != "$1" ] || ! printf '%s' "$2" | cmp -s - "$scratch/out.$5" || ! printf '%s' "$3" | cmp -s - "$scratch/err.$5"; then
        printf '%s: expected status %s, output and errors\n%s%sgot status %s\n' "$6" "$1" "$2" "$3" "$4" >&2
        cat "$scratch/out.$5" "$scratch/err.$5" >&2
        exit 1
    fi
    runs=$((runs + 1))
}

# expect STATUS OUT ERR COMMAND..: runs a command and checks it.
expect() {
    local status=$1 out=$2 err=$3 ended=0
    shift 3
    "$@" > "$scratch/out.0" 2> "$scratch/err.0" || ended=$?
    check "$status" "$out" "$err" "$ended" 0 "$*"
}

# unread COMMAND..: runs a command whose output nobody reads any more.
unread() {
    { sleep 0.2 && "$@"; } | true
    return "${PIPESTATUS[0]}"
}

# A directory with links to the usual tools and to nothing else.
make_tools() {
    local tool
    mkdir "$scratch/tools"
    for tool in bash cat cp dirname env find flock head mkdir mv readlink rm sleep touch; do
        ln -s "$(command -v "$tool")" "$scratch/tools/$tool"
    done
}

# stand_in NAME TEXT: puts a script in the place of a program, in a directory of its own.
stand_in() {
    mkdir -p "$scratch/$1"
    printf '#!/usr/bin/env bash\n%s\n' "$2" > "$scratch/$1/$1"
    chmod +x "$scratch/$1/$1"
}

# make_tree NAME FILE..: a copy of some files of the repository, in the directory `tree`.
make_tree() {
    tree=$scratch/$1
    mkdir "$tree"
    cp -a --parents "${@:2}" "$tree"
}
