# Sourced by the scripts beside it: where things are, how to build and run a program, and on a machine that is not
# x86-64 the means for both. A script that can do without them defines `lack` first, which gets the reason.
# TWAI_SRC: the folder that holds the driver's src/twai/. RATTLE_LIB_DIR: the folder that holds libchherbolat.a.
# CARGO_TARGET_DIR: where cargo builds. A script that does without the driver sets DRIVER to none.
declare -F lack >/dev/null || lack() {
    echo "host: $1" >&2
    exit 1
}

HOST=$(cd "$(dirname "${BASH_SOURCE[0]}")" && pwd)
ROOT=$(dirname "$HOST")
export TWAI_SRC=${TWAI_SRC:-$ROOT/../shared/docs/src}
export RATTLE_LIB_DIR=${RATTLE_LIB_DIR:-$ROOT/target}
export CARGO_TARGET_DIR=${CARGO_TARGET_DIR:-$HOST/target}
export CARGO_NET_OFFLINE=true
CC=(cc)
EMULATOR=()

build() { # PROFILE PROGRAM
    cargo build --quiet --manifest-path "$HOST/Cargo.toml" --profile "$1" --bin "$2"
}

program() { # PROFILE PROGRAM: its path
    echo "$CARGO_TARGET_DIR/${CARGO_BUILD_TARGET:+$CARGO_BUILD_TARGET/}$1/$2"
}

instructions() { # PROGRAM ARGUMENTS...: how many it executes, as callgrind counts, or the emulator: one line of log for each
    if [ ${#EMULATOR[@]} = 0 ]; then
        valgrind --tool=callgrind --callgrind-out-file=/dev/null "$@" 2>&1 >/dev/null | sed -n 's/.*Collected : //p'
    else
        "${EMULATOR[@]}" -singlestep -d exec,nochain -D /dev/stderr "$@" 2>&1 >/dev/null | wc -l
    fi
}

run_program() { # PROFILE PROGRAM ARGUMENTS...
    "${EMULATOR[@]}" "$(program "$1" "$2")" "${@:3}"
}

if [ "${DRIVER:-}" != none ]; then
    [ -f "$TWAI_SRC/src/twai/mod.rs" ] || lack "TWAI_SRC names no folder with src/twai/mod.rs: $TWAI_SRC"
    TWAI_SRC=$(cd "$TWAI_SRC" && pwd)
fi
command -v cargo >/dev/null || lack "cargo is missing"
command -v cc >/dev/null || lack "cc, cargo's linker, is missing"
[ "$(uname -m)" = x86_64 ] || . "$HOST/cross.sh"
