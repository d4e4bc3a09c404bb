# Read by bin/out-cases, bin/fault-cases and bin/command-cases, behind lib.sh: calls, and what they must give. POSIX sh.
# They stand in a folder of their own, with one file and one sheet, the example of the README.
# shellcheck shell=sh
passed=0 failed=0 status=''
room=$(mktemp -d) || exit 2
trap 'chmod -R u+w "$room"; rm -rf "$room"' EXIT
trap 'exit 2' HUP INT TERM
chmod 755 "$room" && cd "$room" || exit 2
cp "$top/crates/drill/data/P0138001" example || exit 2
grep -v '^ZPT' example | tr '|' '\t' >sheet

call() { # COMMAND...
    rm -f out err
    "$@" >out 2>err
    status=$?
}

hold() { # WHAT TEST...
    what=$1
    shift
    if "$@"; then passed=$((passed + 1)); else
        failed=$((failed + 1))
        echo "$name: $what: not so: $*; status $status, and it printed: $(head -c 400 out err 2>/dev/null)"
    fi
}

# The status, and the first line's words, parted by blanks here; nothing on standard error.
answers() { # STATUS LINE
    printf '%s\n' "$2" | tr ' ' '\t' >line
    [ "$status" = "$1" ] && head -n 1 out | cmp -s - line && [ ! -s err ]
}

# A sentence with these phrases on standard error, and status 2.
says_why() { # PHRASE...
    [ "$status" = 2 ] || return 1
    for phrase; do grep -qF -- "$phrase" err || return 1; done
}

# And no answer.
says_only_why() { # PHRASE...
    says_why "$@" && [ ! -s out ]
}

expect() { # WHAT STATUS LINE
    what=$1
    shift
    hold "$what" answers "$@"
}

hindered() { # WHAT PHRASE...
    what=$1
    shift
    hold "$what" says_only_why "$@"
}

cut_short() { # WHAT PHRASE...
    what=$1
    shift
    hold "$what" says_why "$@"
}

same() { [ "$1" = "$2" ]; } # TEXT TEXT

absent() { for path; do if [ -e "$path" ] || [ -h "$path" ]; then return 1; fi; done; }

# Runs a command as nobody where we are root, who may write anywhere.
as_nobody() { # COMMAND...
    if [ "$(id -u)" = 0 ]; then set -- setpriv --reuid=65534 --regid=65534 --clear-groups "$@"; fi
    "$@"
}

finish() {
    echo "$passed passed, $failed failed"
    [ "$failed" = 0 ]
}
