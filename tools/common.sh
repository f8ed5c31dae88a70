# shellcheck shell=bash disable=SC2034,SC2154 # the variables are the program's too
# What the programs of the top folder and tools/calls share. Each sets `name`, its name in messages, `self`, its own file, and, but for
# tools/calls, `top`, the repository's folder, then reads this file. The comment at the head of `self` is its help: the first line is the
# usage.

stop() { printf '%s: %s\n' "$name" "$2" >&2; exit "$1"; } # STATUS TEXT
help() { sed -n -e '1d' -e '/^#/!q' -e 's/^# \{0,1\}//p' "$self"; }
wrong_usage() { help | sed -n 1p >&2; exit 2; }

# Options of a program's own: it takes the words at the front, says in `taken` how many, and fails where there is none.
own_option() { return 1; }

# The words of the command line: the files that they name go to `files`.
files=()
take_words() {
    local taken
    while [ "$#" -gt 0 ]; do
        taken=1
        case $1 in
        --help | -h) help; exit ;;
        --) shift; files+=("$@"); return ;;
        -*) own_option "$@" || wrong_usage ;;
        *) files+=("$1") ;;
        esac
        shift "$taken"
    done
}

need_file() {
    [ -e "$1" ] || stop 2 "no such file: $1"
    [ ! -d "$1" ] || stop 2 "a folder, not a file: $1"
    [ -r "$1" ] || stop 2 "the file can't be read: $1"
}

# The exit status where standard output can't be written or a proof fails; ./compare has another.
unwritten=1

# Told before anything is proved.
need_output() { { true 3>&1; } 2> /dev/null || stop "$unwritten" "standard output is closed"; }

# Whether `picture` can be a picture's file, as far as that is known before anything is proved. It replaces none of the `files` and of what is
# `read_too`.
need_picture() {
    local file folder
    [ -n "$picture" ] || wrong_usage
    [ ! -d "$picture" ] || stop 2 "a folder, not a file: $picture"
    folder=$(dirname -- "$picture")
    [ -d "$folder" ] || stop 2 "no such folder: $folder"
    if [ -e "$picture" ]; then folder=$picture; fi
    [ -w "$folder" ] || stop "$unwritten" "the picture can't be written: $picture"
    for file in "${files[@]}" ${read_too[@]+"${read_too[@]}"}; do
        [ ! "$picture" -ef "$file" ] || stop 2 "the picture would replace a file that is read: $file"
    done
}

# What the program is built with, told before its crates are proved; an installed program is built already.
need_packages() { [ ! -e "$top/crates.txt" ] || "$top/tools/need" "$@" || exit "$unwritten"; }

# ready FILE CRATE COMMAND...: sets `program` to FILE, which the command builds; standard error has the crates that are proved for it. An
# installed tree has no crates and builds nothing: there the programs stand in bin/, beside the scripts.
ready() {
    program=$top/$1
    if [ ! -e "$top/crates.txt" ]; then program=$top/bin/${1##*/}; return; fi
    "$top/tools/progress" "${@:2}" || exit "$unwritten"
}

# ready_proved CRATE: the same for a proved program. rt has no command that only builds it: where it has built it, it runs it, here on nothing.
ready_proved() { ready "crates/$1/out/$1" "$1" sh -c "cd crates/$1 && exec rt run < /dev/null > /dev/null"; }

# copy_room FILE COPY: the bytes that the proved program is given. It takes so many at most; one more tells it, and us, that there are more.
most=65536 most_said=65,536
copy_room() {
    local reason
    need_file "$1"
    reason=$(head -c $((most + 1)) < "$1" 2>&1 > "$2") || stop 2 "the file can't be read: $1: ${reason##*: }"
}
is_long() { [ "$(wc -c < "$1")" -gt "$most" ]; }

# What a program wrote goes out whole, or the reason is told. Who closes a pipe early (status 141) needs none.
write_out() { # TEXT
    local reason status=0
    { reason=$(printf '%s\n' "$1" 2>&1 >&3) || status=$?; } 3>&1
    [ "$status" -ne 141 ] || exit 141
    [ "$status" -eq 0 ] || stop "$unwritten" "standard output can't be written: ${reason##*: }"
}

# A room that a proved program refused, from the line that it wrote: why, and status 1.
stop_if_refused() { # LINE FILE COPY
    local number=${1#refused }
    [ "$number" != "$1" ] || return 0
    ! is_long "$3" || stop 1 "$2: refused $number: longer than $most_said bytes"
    stop 1 "$2: refused $number: $("$top/tools/refusal" "$number")"
}

# Names the refused calls: a line `call N: NUMBER` of the file CALLS whose number is not 0 becomes the Nth line of the file NAMES (as
# tools/calls --names writes it) and the number's text. Other lines stay.
tell_refused() { # NAMES CALLS
    # shellcheck disable=SC2016 # the dollars are awk's
    "$top/tools/refusal" | PROGRAM=$name awk '
        part == "texts" { text[$1] = substr($0, index($0, " ") + 1); next }
        part == "names" { call[FNR] = $0; next }
        !/^call [0-9]+: [0-9]+$/ { print; next }
        $3 != 0 {
            n = $2 + 0
            more = $3 == 12 && call[n] ~ / at [0-9]+ [0-9]+$/ ? " (A and B count strips of 8 pixels)" : ""
            print ENVIRON["PROGRAM"] ": " call[n] ": refused " $3 ": " text[$3] more
        }' part=texts - part=names "$1" part=calls "$2"
}
