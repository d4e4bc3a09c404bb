# Read by the commands that run a program, rig, bench, nightly and drill, here and where bin/install puts them, and by all others
# in bin/. A command sets own, its own path with every link followed, and then reads this file. POSIX sh and coreutils alone.
# shellcheck shell=sh

home=${own%/*} name=${own##*/}
unset CDPATH

say() { printf '%s\n' "$*" >&2; }
die() { say "$name: $*"; exit 2; }

# Of a closed standard error or input nothing may take the number: a file that is opened would get it, and messages would go
# into the file. A closed standard output is no place for an answer.
(: 4>&2) || exec 2>/dev/null
(: 4>&1) 2>/dev/null || die "can't write standard output: Bad file descriptor"
input=open
(: 4<&0) 2>/dev/null || { input=closed; exec </dev/null; }

# For a command whose program reads standard input.
need_input() { [ "$input" = open ] || die "can't read standard input: Bad file descriptor"; }

print() { printf '%s\n' "$*" 2>/dev/null || die "can't write standard output"; }

# The words at the top of a command are its help.
help() {
    text=''
    while IFS= read -r line; do
        case $line in
        '#!'* | '# shellcheck'*) continue ;;
        '#'*) line=${line#?} ;;
        *) break ;;
        esac
        text="$text${line# }
"
    done <"$own"
    print "${text%?}"
}

# What a call that is none gets.
wrong_call() { help >&2; exit 2; }

# The commit and the sum of the prover: as it was at the installation, or as it is in the tree.
version() {
    if [ -f "$home/version" ]; then IFS= read -r built <"$home/version"; else built=$(. "$home/lib.sh" && built_from); fi
    print "$name $built"
}

# Answers --help and --version.
about() { # WORD...
    [ $# = 1 ] || return 0
    case $1 in
    --help) help; exit 0 ;;
    --version) version; exit 0 ;;
    esac
}

# A name as people can read it: printable ASCII as itself but backslash and backquote, every other byte as \x and two hex digits.
shown() { # NAME
    # shellcheck disable=SC2059
    for byte in $(printf %s "$1" | od -An -v -to1); do
        case $byte in
        0[0-3]? | 134 | 140 | 177 | [23]??) printf '\\x%02x' "0$byte" ;;
        *) printf "\\$byte" ;;
        esac
    done
}

# Sets program, and system and emulator to run it: those beside an installed command, else those of the kit, and the program is
# proved and built first where that has not been done.
find_program() { # NAME
    if [ -d "$home/program" ]; then
        program=$home/program/$1 system=$home/system emulator=$home/system/qemu-x86_64
        [ -x "$emulator" ] || emulator=''
    else
        # shellcheck source=bin/lib.sh
        . "$home/lib.sh"
        find_kit
        build_program "$1"
    fi
}

# Runs a program. Programs are for x86-64 and run under their own loader and C library; on another processor an emulator runs
# them. None of the three takes a setting from outside: the environment is empty.
run_program() { # PATH [WORD...]
    # shellcheck disable=SC2016
    env -i /bin/sh -c 'exec "$@"' sh ${emulator:+"$emulator"} "$system/ld-linux-x86-64.so.2" --library-path "$system" "$@"
}

# A name of printable ASCII alone.
is_ascii() { # NAME
    (LC_ALL=C; case $1 in *[!\ -~]*) exit 1 ;; esac)
}

# A program opens files by names that are text, and a name may have any bytes. So each word that is not ASCII gets a link to the file
# that it may name, in a folder of links, which the program finds on descriptor 5. A link's name is the hex digits of the word's
# bytes, a slash behind each 200 of them, and a hyphen at the end. A word that is text is opened as it stands.
link_words() { # WORD...
    links=''
    for word; do
        ! is_ascii "$word" || continue
        if [ -z "$links" ]; then
            links=$(mktemp -d) || return
            trap 'rm -rf -- "$links"' EXIT
            trap 'exit 2' HUP INT TERM
        fi
        link=$links/$(printf %s "$word" | od -An -v -tx1 | tr -d ' \n' | fold -w 200 | paste -s -d / -)-
        case $word in
        /*) leads=$word ;;
        *) leads=/proc/self/cwd/$word ;;
        esac
        mkdir -p -- "${link%/*}" && ln -s -- "$leads" "$link"
    done 2>/dev/null
}

# Runs a program and gives its status. A program ends with a word on descriptor 3, which is 0, 1 or 2: the status. Where no word came
# the program was broken off, and that is 2. Its standard output is ours, untouched.
start() { # PATH [WORD...]
    link_words "$@"
    { word=$(run_program "$@" 3>&1 >&4 4>&-); ended=$?; } 4>&1 5<"${links:-/dev/null}"
    [ -z "$links" ] || rm -rf -- "$links"
    case $ended:$word in
    0:[012]) return "$word" ;;
    esac
    say "$name: the program was broken off: it ended with status $ended, and its closing word is '$(shown "$word")'"
    return 2
}
