# Sourced by script and by examples/formats: a program of c/, built over the library and run.
# Whoever sources it has HOST and ROOT, and `lack`, which gets the reason where the means are missing.
# RATTLE_LIB_DIR: the folder that holds libchherbolat.a.
CC=(cc)
EMULATOR=()
command -v cc >/dev/null || lack "cc, the C compiler, is missing"
[ "$(uname -m)" = x86_64 ] || . "$HOST/cross.sh"

run_in_c() { # PROGRAM
    local archive=${RATTLE_LIB_DIR:-$ROOT/target}/libchherbolat.a
    local source=$HOST/c/$1.c program=$HOST/target/$1 header=$ROOT/include/chherbolat.h file
    if [ ! -e "$archive" ]; then
        echo "${0##*/}: proving and building the library, once; this takes some minutes" >&2
        "$ROOT/library" </dev/null >/dev/null || lack "the library could not be built"
    fi
    for file in "$source" "$header" "$archive"; do
        [ "$program" -nt "$file" ] && continue
        mkdir -p "$HOST/target"
        "${CC[@]}" -std=c11 -Wall -Wextra -Werror -pedantic -O1 -I "$ROOT/include" -o "$program" "$source" "$archive"
        break
    done
    "${EMULATOR[@]}" "$program"
}
