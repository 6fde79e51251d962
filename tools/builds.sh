# shellcheck shell=bash
# Builds the library for C, and the programs in Rust over it. Sourced behind tools/build_once.sh.
libraries=target/staticlib
merged=target/library.merged
library_sources='crates crates.txt'

# Puts the one object of each crate's archive into a new one, with no time or owner in it, and keeps it where it differs: one that comes
# out the same is left as it is, so that nothing that links it is built again.
merge() {
    local name
    rm -rf "$merged" && mkdir -p "$merged" "$libraries" || return
    for name in "$@"; do
        ar x "crates/$name/out/lib$name.a" --output "$merged" || return
    done
    ar rcsD "$merged/libjusqani.a" "$merged"/*.o || return
    cmp -s "$merged/libjusqani.a" "$libraries/libjusqani.a" || mv "$merged/libjusqani.a" "$libraries/libjusqani.a" || return
    rm -r "$merged"
}

# For every x86-64 processor: rt's default asks for more than a client's may have, and a static library does not check that.
make_library() {
    (cd crates/foreign && rt lib --cpu x86-64) && (cd crates/panel && rt lib --cpu x86-64) && merge foreign panel
}

# build_library NEED..: with what the script needs besides, which is looked for first.
build_library() {
    # shellcheck disable=SC2086
    up_to_date library "$libraries/libjusqani.a" $library_sources || check_needs rt ar "$@" || return
    build_once library "$libraries/libjusqani.a" "$library_sources" make_library
}

make_program() {
    cd tools && cargo build --release --locked --package "$1"
}

# build_program NAME NEED..: the library and a program in Rust, target/tools/release/NAME.
build_program() {
    local sources="tools include $libraries/libjusqani.a"
    build_library cargo "${@:2}" || return
    # shellcheck disable=SC2086
    up_to_date "$1" "target/tools/release/$1" $sources || check_needs cargo "${@:2}" || return
    build_once "$1" "target/tools/release/$1" "$sources" make_program "$1"
}
