#!/usr/bin/env bash
# Runs the built program to each exit status that can be provoked from outside, and compares what it writes and the status.
# Run it after rt ci. It writes nothing where all is as it should be.
set -u

top=$(cd "$(dirname "$0")/.." && pwd)
crate=$top/crates/wasmnode
program=$crate/out/wasmnode
work=$(mktemp -d)
trap 'rm -rf "$work"' EXIT

newer() {
    find "$top/crates" "$top/crates.txt" -name out -prune -o -type f -newer "$program" -print -quit
}

if [ ! -x "$program" ] || [ -n "$(newer)" ]; then
    (cd "$crate" && rt run -- serial <"$crate/stdin") >"$work/log" 2>&1 || {
        cat "$work/log"
        exit 1
    }
fi

failed=0
# what it is, the status that is wanted, the status that came; then what is wanted and what was written, as files
compare() {
    if [ "$2" != "$3" ]; then
        echo "check_statuses: $1: the status is $3, and not $2"
        failed=1
    fi
    if ! cmp -s "$4" "$5"; then
        echo "check_statuses: $1: other bytes were written"
        failed=1
    fi
}

usage='usage: wasmnode run|serial|check|gen N|soak N [options]'
missing='{"bad_line":{"kind":"missing","line":1}}'
base64='{"bad_line":{"kind":"base64","line":1}}'
found="$work/found"
wanted="$work/wanted"
: >"$work/nothing"

"$program" serial <"$crate/stdin" >"$found"
compare "a run" 0 $? "$crate/stdout" "$found"

printf '%s\n' '{"check":"Gzip"}' >"$wanted"
echo H4sI | "$program" check >"$found"
compare "a code that is refused" 0 $? "$wanted" "$found"

printf '%s\n' "$usage" >"$wanted"
"$program" <"$crate/stdin" >"$found"
compare "no words" 2 $? "$wanted" "$found"
"$program" serial more <"$crate/stdin" >"$found"
compare "a word more" 2 $? "$wanted" "$found"
"$program" $'\xff' <"$crate/stdin" >"$found"
compare "a word that is no UTF-8" 2 $? "$wanted" "$found"

printf '%s\n' "$missing" >"$wanted"
"$program" serial <"$work/nothing" >"$found"
compare "no input" 3 $? "$wanted" "$found"

{ head -n 1 "$crate/stdout" && printf '%s\n' '{"bad_line":{"kind":"shape","line":2}}'; } >"$wanted"
{ head -n 1 "$crate/stdin" && printf '%s\n' '{"block":{}}'; } | "$program" serial >"$found"
compare "a bad line behind the genesis" 3 $? "$wanted" "$found"

printf '%s\n' "$base64" >"$wanted"
echo A | "$program" check >"$found"
compare "a line that is no base64" 3 $? "$wanted" "$found"

"$program" serial <"$work" >"$found"
compare "an input that can't be read" 5 $? "$work/nothing" "$found"
"$program" check <"$work" >"$found"
compare "a code that can't be read" 5 $? "$work/nothing" "$found"
"$program" serial <&- >"$found"
compare "a closed input" 5 $? "$work/nothing" "$found"

for words in "serial" "check" "none"; do
    "$program" $words <"$crate/stdin" >/dev/full
    compare "$words, and a full output" 6 $? "$work/nothing" "$work/nothing"
    "$program" $words <"$crate/stdin" >&-
    compare "$words, and a closed output" 6 $? "$work/nothing" "$work/nothing"
done

exit "$failed"
