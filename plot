#!/usr/bin/env bash
# Runs the program `plot` on its arguments. The library and it are built first where they are not up to date.
set -eu
# shellcheck source=tools/build_once.sh
. "$(dirname "$(readlink -f "$0")")/tools/build_once.sh" || exit 2
# shellcheck source=tools/builds.sh
. "$root/tools/builds.sh" || exit 2

# The card may be standard input, the picture may go to a file, and only a picture needs gnuplot.
reads=false writes=true needs=(gnuplot)
for argument; do
    case $argument in
    -) reads=true ;;
    --output) writes=false ;;
    --data | --help | -h) needs=() ;;
    esac
done

check_streams "$reads" "$writes"
build_program plot ${needs[@]+"${needs[@]}"} || exit 2
exec "$root/target/tools/release/plot" "$@"
