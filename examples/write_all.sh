#!/usr/bin/env bash
# Writes the tables of all examples anew, in place. Fails if one is not as it was, or if a program has an error.
set -u
cd "$(dirname "$0")" || exit 1
new=$(mktemp) || exit 1
trap 'rm -f "$new"' EXIT
status=0
for program in *.dana; do
    table="${program%.dana}.table"
    if ! python3 ../tools/write_table.py "$program" "$new"; then
        status=1
    elif cmp -s "$new" "$table"; then
        echo "$table: as it was"
    else
        cat "$new" > "$table"
        echo "$table: differs, written anew"
        status=1
    fi
done
exit "$status"
