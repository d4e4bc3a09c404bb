# Read by the commands in bin/, behind launch.sh: the kit, the crates, and what is built of them. POSIX sh.
# shellcheck shell=sh
top=${home%/*}
[ -z "${RATTLE_HOME:-}" ] || RATTLE_HOME=$(readlink -f -- "$RATTLE_HOME")

# Sets rt (the kit's command) and tools (its folder for this machine), and what programs run under. RATTLE_HOME overrides the
# kit that stands behind the rt on PATH.
find_kit() {
    if [ -n "${RATTLE_HOME:-}" ]; then
        rt=$RATTLE_HOME/bin/rt
    else
        rt=$(command -v rt) || die "no kit: put rt on PATH, or set RATTLE_HOME to the kit's folder"
    fi
    kit=${RATTLE_HOME:-$(dirname "$(dirname "$(readlink -f "$rt")")")}
    tools=$kit/toolchain
    [ -x "$rt" ] || die "no kit at $kit: it has no bin/rt"
    [ -d "$tools" ] || die "the kit at $kit has no toolchain"
    system=$tools/lib emulator=$tools/bin/qemu-x86_64
    [ -x "$emulator" ] || emulator=''
}

# The commit, whether the tree differs from it, and the sum of the prover.
built_from() {
    commit=$(git -c safe.directory="$top" -C "$top" rev-parse --short=12 HEAD 2>/dev/null) || commit=unknown
    changes=$(git --no-optional-locks -c safe.directory="$top" -C "$top" status --porcelain 2>/dev/null | head -n 1)
    sum=$(find_kit 2>/dev/null && "$rt" version) || sum=unknown
    printf '%s, proved by logic %s\n' "$commit${changes:+, changed}" "${sum##* }"
}

# True where crates.txt lists the crate.
listed() { # NAME
    NAME=$1 awk '
        { sub(/#.*/, ""); at = index($0, ":"); name = substr($0, 1, at - 1); sub(/[ \t]+staticlib[ \t]*$/, "", name); gsub(/[ \t]/, "", name) }
        name == ENVIRON["NAME"] { found = 1 }
        END { exit !found }' "$top/crates.txt"
}

# True where the file is there, and no file below the others is newer, but for what rt leaves in the folders out/.
fresh() { # FILE SOURCE...
    built=$1
    shift
    [ -f "$built" ] && [ -z "$(find "$@" -name out -prune -o -type f -newer "$built" -print | head -n 1)" ]
}

# Has rt prove a crate and build what it is, a program or a static library, into its folder out/, where none is there that is as
# new as the sources: rt ci leaves one too, and each builds only what is proved. What rt says goes to standard error. A program
# that rt run has built it runs once, with no words; how that ends says nothing of the build.
build_out() { # NAME FILE
    listed "$1" || die "$1 is not built yet: crates.txt has no such crate"
    made=$top/crates/$1/out/$2
    ! fresh "$made" "$top/crates" "$top/crates.txt" || return 0
    (cd "$top/crates/$1" && "$rt" check >&2 </dev/null) || die "$1 was not built: it is not proved"
    case $2 in
    *.a) (cd "$top/crates/$1" && "$rt" lib >&2 </dev/null) || die "$1 was not built" ;;
    *) (cd "$top/crates/$1" && "$rt" run >/dev/null 2>&1 </dev/null) ;;
    esac
    [ -f "$made" ] || die "rt left no crates/$1/out/$2: remove crates/$1/out and try again"
    touch "$made"
}

# Sets program, which is proved and built where target/ has none, or has one older than the sources.
build_program() { # NAME
    program=$top/target/bin/$1
    ! fresh "$program" "$top/crates" "$top/crates.txt" || return 0
    build_out "$1" "$1"
    mkdir -p "$top/target/bin" && cp -f "$made" "$program.new" && mv -f "$program.new" "$program" || die "target/bin/$1 was not made"
}

# Builds the second program, where it is not built or older than its sources.
second=$top/second/target/release/second
build_second() {
    ! fresh "$second" "$top/second/src" "$top/second/Cargo.toml" "$top/second/Cargo.lock" || return 0
    cargo build --quiet --release --offline --manifest-path "$top/second/Cargo.toml" --target-dir "$top/second/target" \
        || die "the second program was not built"
    touch "$second"
}

# Prints a folder for what is kept of a run: one under target/, or a new one elsewhere where that can't be written to.
keeping() { # FOLDER
    if mkdir -p "$1" 2>/dev/null && [ -w "$1" ]; then printf '%s\n' "$1"; else mktemp -d; fi
}
