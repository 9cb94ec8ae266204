#!/usr/bin/env bash
# How source with a planted fault is compiled, without its proof. For compare/faults/run, which sources this.

kit=$(dirname "$(readlink -f "$(command -v rt)")")/..
unproved=$kit/on/x86_64

# Whether the toolchain has a compiler for it.
has_unproved() {
    [ -x "$unproved/bin/rattle-cases" ]
}

# FOLDER/libNAME.a of the crate NAME_c, over the crate NAME and those in CRATES that are named after it.
archive() { # FOLDER CRATES NAME DEP..
    local folder=$1 crates=$2 name=$3 source=$2/${3}_c/src/lib.rt dep
    local words=(--crate-name "${name}_c" --lib "std=$kit/libs/std/src/lib.rt")
    for dep in "${@:4}" "$name"; do
        words+=(--lib "$dep=$crates/$dep/src/lib.rt")
    done
    mkdir -p "$folder"
    "$unproved/bin/rattle-cases" --toolchain "$unproved/toolchain" --staticlib "$folder/lib$name.a" "$source" "${words[@]}"
}

# The three libraries of the comparison.
archives_of() { # FOLDER CRATES
    local folder=$1 crates=$2
    archive "$folder" "$crates" calls \
        serialize prefix replay_protection bodies asks encode decode &&
        archive "$folder" "$crates" table_calls \
            serialize times addresses replay_protection entries places &&
        archive "$folder" "$crates" netcode \
            serialize prefix replay_protection bodies asks encode decode times addresses entries places records server \
            upkeep queries turns arrivals opens grants seals sending
}
