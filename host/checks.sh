# shellcheck shell=bash disable=SC2034 # some variables are only the scripts' own
# What the scripts host/check-header, -install, -programs, -pictures, -places and -scene share: where they work, what a C program is compiled
# with, and how a failure is told. Each reads this file first.
set -euo pipefail
cd "$(dirname "$0")/.."
unset MAKEFLAGS MAKELEVEL DESTDIR # `make test` and its caller set them for themselves
scratch=$(mktemp -d)
trap 'rm -rf "$scratch"' EXIT

strict=(-Wall -Wextra -pedantic -Werror -O1 -g -fsanitize=address -fsanitize=undefined)
library=target/staticlib/libkildegrom.a
built=target/host/checked
touch "$scratch/empty"
head -c 100 rooms/cellar.room > "$scratch/cut"

fail() { printf '%s: %s\n' "$0" "$1" >&2; exit 1; }
skipped() { printf '%s: skipped: %s\n' "$0" "$1"; }

build_programs() { make -s programs beside OUT="$built" CFLAGS="${strict[*]}" || fail "the programs can't be built"; }

# pictures FILE PROGRAM: for each line of FILE, a checksum (cksum), a size and words, the picture that the program writes given these words.
pictures() {
    local sum size words got
    while read -r sum size words; do
        [ "$sum" != '#' ] || continue
        # shellcheck disable=SC2086 # the words are arguments
        got=$("$2" $words | cksum) || fail "$2 $words: exit status $?"
        [ "$got" = "$sum $size" ] || fail "$2 $words: checksum $got, not $sum $size"
    done < "$1"
}

# refused STATUS TEXT COMMAND...: the command ends with that status, says the text on standard error and writes nothing else.
refused() {
    local status=$1 text=$2 got=0
    shift 2
    "$@" > "$scratch/out" 2> "$scratch/err" < /dev/null || got=$?
    [ "$got" -eq "$status" ] || fail "exit status $got, not $status: $*: $(cat "$scratch/err")"
    grep -qF -- "$text" "$scratch/err" || fail "no message '$text': $*: $(cat "$scratch/err")"
    [ ! -s "$scratch/out" ] || fail "a refused command wrote to standard output: $*"
}
