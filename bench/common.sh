# What the scripts of this folder share. To be sourced in the repository's folder, with `name` set to the script's name.
. tests/have.sh
made=target/bench

# Says what goes on, or what ended it, on standard error.
progress() { # WORD..
    echo "$name: $*" >&2
}
fail() { # WORD..
    progress "FAILED: $*"
    exit 1
}

# Proves and builds the programs and the library, where they are not there.
prove() {
    local program missing=()
    for program in search clauses reply; do
        [ -x "target/bin/$program" ] || missing+=("$program")
    done
    [ -f target/staticlib/libengine.a ] || missing+=(engine)
    if [ "${#missing[@]}" -gt 0 ]; then
        progress "tools/build ${missing[*]} (the first time all that they stand on is proved) .."
        tools/build "${missing[@]}" >&2 || fail "tools/build ${missing[*]}"
    fi
    mkdir -p "$made"
}

# Builds a plain Rust program over the library, or over the one in another folder.
optimised=(-O)
compile() { # FILE PROGRAM [FOLDER]
    have cc gcc && have rustc rustc || fail "rustc or gcc cannot be had"
    local crate=${2##*/}
    rustc "${optimised[@]}" --edition 2021 --crate-name "${crate//-/_}" -L "${3:-target/staticlib}" -l static=engine -o "$made/$2" "$1"
}
