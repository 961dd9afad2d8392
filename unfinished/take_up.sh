#!/usr/bin/env bash
# Makes a copy of the repository in a new folder, as it was at the commit that the unfinished work fits, with that work in
# its place.
set -eu
[ $# -eq 1 ] || { echo "usage: take_up.sh FOLDER" >&2; exit 2; }
top=$(cd "$(dirname "$0")/.." && pwd)
git clone -q "$top" "$1"
cd "$1"
git checkout -q --detach 3752557ef4f955c5c3d1ccd84cb10913e4923a1d
git apply unfinished/landed.patch
find unfinished/crates -type f | while read -r file; do
    to=${file#unfinished/}
    mkdir -p "$(dirname "$to")"
    cp "$file" "${to%.txt}"
done
cp -r unfinished/hosts unfinished/include .
rm -r unfinished
