#!/bin/sh
# Adds a line to a notebook in a store, and prints all of it: examples/notebook.sh PROGRAM FILE WORDS
#
# A script that needs one reply at a time talks through two pipes. One that has all its lines at hand, as the listing at the end, writes them and reads the replies behind.
set -eu
program=$1 file=$2
shift 2

pipes=$(mktemp -d)
trap 'rm -rf "$pipes"' EXIT
mkfifo "$pipes/in" "$pipes/out"
"$program" "$file" <"$pipes/in" >"$pipes/out" &
exec 3>"$pipes/in" 4<"$pipes/out"

# Writes a line, and leaves the first line of its reply in $reply; a refusal ends the script.
ask() {
    printf '%s\n' "$1" >&3
    IFS= read -r reply <&4
    case $reply in err\ *) echo "$1: $reply" >&2; exit 1 ;; esac
}

IFS= read -r reply <&4
echo "opened: $reply"
ask 'getas note[text:S]'
ask "add note \"$(printf '%s' "$*" | sed 's/\\/\\\\/g; s/"/\\"/g')\""
echo "row ${reply#ok }"
ask commit
echo "stored: ${reply#ok }"
ask quit
exec 3>&- 4<&-
wait

printf 'show note\n' | "$program" --read "$file" | sed '1,2d'
