#!/usr/bin/env bash
# Builds the C host and the test of the header's layouts, and runs both. Fails if the library, a build or a run fails.
set -eu
cd "$(dirname "$0")/../.."
. hosts/library.sh
out=$(mktemp -d)
trap 'rm -rf "$out"' EXIT
for program in layout host; do
    "${CC:-cc}" -std=c11 -O2 -Wall -Wextra -Werror -Iinclude -o "$out/$program" "hosts/c/$program.c" "${archives[@]}"
done
"$out/layout"
"$out/host" examples/high_water.table examples/high_water.feed examples/high_water.expect
