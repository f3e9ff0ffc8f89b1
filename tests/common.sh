# What the tests of programs share. To be sourced in the repository's folder, with `name` set to the test's name.
sheets=tests/clauses.d

room=$(mktemp -d)
trap 'rm -r "$room"' EXIT
all_passed=yes
passed=0

# Proves and builds programs.
build() { # PROGRAM..
    echo "proving (the first time all that they stand on) .."
    tools/build "$@" >"$room/built" || { echo "tests/$name: FAILED; target/log has what was printed"; exit 1; }
}

# Prints each byte of a sheet as printf takes it. A sheet's file has hexadecimal digits, and comments on lines that start with #.
escapes() { # FILE
    sed '/^#/d' "$1" | tr -d ' \n' | sed 's/../\\x& /g'
}

# Prints the bytes of a sheet.
bytes() { # FILE
    printf "$(escapes "$1" | tr -d ' ')"
}

# Prints the bytes of a sheet one by one, with pauses.
slowly() { # FILE
    local byte
    for byte in $(escapes "$1"); do
        printf "$byte"
        sleep 0.02
    done
}

# Says that a case passed, with a word on it; or that it failed, and why.
pass() { # CASE WORD
    echo "$name: $1: $2"
    passed=$((passed + 1))
}
fail() { # CASE WHY
    echo "$name: FAILED: $1: $2"
    all_passed=no
}

# Runs a program and compares what it prints with $room/due.
compare() { # CASE COMMAND..
    local status=0
    "${@:2}" >"$room/printed" || status=$?
    if [ "$status" -ne 0 ]; then
        fail "$1" "the program ended with status $status"
    elif ! cmp -s "$room/printed" "$room/due"; then
        fail "$1" "what it printed (<) is not what is due (>):"
        diff -a "$room/printed" "$room/due" | head -n 12 || true
    else
        pass "$1" "$(head -n 1 "$room/due")"
    fi
}

# Says how all ended, with status 1 if a case failed.
finish() { # WHAT
    [ "$all_passed" = yes ] || { echo "tests/$name: FAILED"; exit 1; }
    echo "$name: $1 on $passed inputs"
}
