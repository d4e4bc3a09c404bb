# Read by bin/c-example and bin/speed, behind bin/lib.sh and find_kit: the static library, and C programs built with the kit's
# clang, for x86-64 like the library. POSIX sh.
# shellcheck shell=sh
library=target/staticlib/libscreen.a

# Proves and builds the static library where target/ has none, or has one older than the sources.
build_library() {
    ! fresh "$library" crates crates.txt || return 0
    build_out screen libscreen.a
    mkdir -p target/staticlib && cp -f "$made" "$library" || die "$library was not made"
}

compile() { # SOURCE OBJECT [FLAG...]
    source=$1 object=$2
    shift 2
    "$tools/bin/clang" --target=x86_64-unknown-linux-gnu -std=c17 -O3 -Wall -Wextra "$@" -c "$source" -o "$object" || die "$source was not compiled"
}

link_c() { # PROGRAM FILE...
    program=$1
    shift
    "$kit/bin/rattle-link" --target x86_64-unknown-linux-gnu --toolchain "$tools" -o "$program" "$@" 2>"$program.said" \
        || { cat "$program.said" >&2; die "$program was not linked"; }
}
