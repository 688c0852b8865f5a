# Sourced by ./accept, ./filter and ./library: the input of the first two, and the proving and building of what all three make, where that was not done
# for the sources as they are.
ROOT=$(dirname "$(dirname "$(readlink -f "${BASH_SOURCE[0]}")")")

fail() { # REASON
    echo "${0##*/}: $1" >&2
    exit 2
}

wrong_use() {
    usage >&2
    exit 2
}

take_input() { # [--] [FILE]: it becomes standard input, which `-` is already
    case ${1:-} in
    --) shift ;;
    -?*) wrong_use ;;
    esac
    [ $# -le 1 ] || fail "one file at a time"
    [ $# = 1 ] || [ ! -t 0 ] || wrong_use
    if [ "${1--}" != - ]; then
        [ -e "$1" ] || fail "$1: there is no such file"
        [ ! -d "$1" ] || fail "$1 is a directory"
        { exec <"$1"; } 2>/dev/null || fail "$1 can't be read"
    fi
    [ -e /dev/fd/0 ] || fail "standard input is closed"
}

crates_of() { # CRATE...: they and those that they stand on, from the last to the first; none is listed above them in crates.txt
    awk -F: -v wanted="$*" '
        /^[a-z]/ { sub(/ staticlib$/, "", $1); crate[++count] = $1; lists[$1] = $2 }
        END {
            split(wanted, first, " ")
            for (f in first) needed[first[f]]
            for (i = count; i; i--) if (crate[i] in needed) {
                print crate[i]
                split(lists[crate[i]], below, " ")
                for (b in below) needed[below[b]]
            }
        }' "$ROOT/crates.txt"
}

need_rt() {
    command -v rt >/dev/null || fail "rt, of the Rattle kit, is missing"
}

state_of() { # CRATE...: a digest of the kit and of the sources that they are made of
    local crate folders=()
    cd "$ROOT" || exit
    for crate in $(crates_of "$@"); do
        folders+=("crates/$crate/src" "crates/$crate/specs" "crates/$crate/proofs")
    done
    { rt version </dev/null && cat crates.txt && find "${folders[@]}" -type f -print0 2>/dev/null | sort -z | xargs -0 sha256sum; } | sha256sum
}

say_progress() { # COUNT: passes on what rt says; standard error says how many of the crates are proved, on a terminal in one line that goes again
    local line proved=0
    [ ! -t 2 ] || printf '%s' "${0##*/}: proving: 0 of $1" >&2
    while IFS= read -r line; do
        printf '%s\n' "$line"
        [[ $line = "logic=proved"* ]] || continue
        proved=$((proved + 1))
        if [ -t 2 ]; then
            printf '\r%s' "${0##*/}: proving: $proved of $1" >&2
        else
            echo "${0##*/}: proving: $proved of $1" >&2
        fi
    done
    [ ! -t 2 ] || printf '\r\033[K' >&2
}

# `rt run` proves and builds a program and runs it, here on nothing: it prints what it then says, and the program stands in its crate's out/.
prove_program() { # PROGRAM
    local program=$ROOT/crates/$1/out/$1 state log
    need_rt
    state=$(state_of "$1")
    [ ! -x "$program" ] || [ "$(cat "$program.state" 2>/dev/null)" != "$state" ] || return 0
    log=$(
        cd "$ROOT/crates/$1" && set -o pipefail
        rt run 2>&1 </dev/null | say_progress "$(crates_of "$1" | wc -l)"
    ) || {
        echo "$log" >&2
        fail "the program could not be built"
    }
    echo "$state" >"$program.state"
}

run_proved() { # PROGRAM WORDS...
    "$ROOT/crates/$1/out/$1" "${@:2}"
}
