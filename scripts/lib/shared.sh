# What the scripts in bash share. One of them begins with
#
#   source "$(dirname "$(readlink -f "${BASH_SOURCE[0]}")")/lib/shared.sh"
#
# This sets root, the folder of the repository, and runs nothing.
# shellcheck shell=bash

root=$(cd "$(dirname "$(readlink -f "${BASH_SOURCE[0]}")")/../.." && pwd)

# newer_source FILE: a file that FILE is built from and that is newer than it, if there is one.
newer_source() {
    find "$root/crates.txt" "$root"/crates/*/src "$root"/crates/*/specs "$root"/crates/*/proofs \
        -type f -newer "$1" -print -quit 2>/dev/null
}

# wants_rt TEXT: ends the script with this text if there is no 'rt'.
wants_rt() {
    if ! command -v rt >/dev/null; then
        echo "$1: install the Rattle kit" >&2
        exit 127
    fi
}

# build_logged NAME FILE COMMAND..: has COMMAND build FILE, crates/CRATE/out/.., in the folder of its crate. What it says goes to
# out/build.log there, and the seconds that it takes are told under NAME.
build_logged() {
    local crate=${2%/out/*}
    (cd "$crate" && "$root/scripts/lib/logged" "$1" "$crate/out/build.log" "${@:3}")
    touch "$2"
}

# build_cbsrun: proves and builds the program if it is not there or a source is newer. Sets program, its path.
build_cbsrun() {
    program=$root/crates/cbsrun/out/cbsrun
    if [[ ! -x $program || -n $(newer_source "$program") ]]; then
        "$root/scripts/prove" >/dev/null
    fi
}

# What passed and what failed of what a script tries.
passed=0 failed=0
pass() { passed=$((passed + 1)); }
fail() { failed=$((failed + 1)); }

# tell_counts NAME: the last line of such a script. Its status is the script's, 0 if nothing failed.
tell_counts() {
    echo "$1: $passed passed, $failed failed"
    ((failed == 0))
}
