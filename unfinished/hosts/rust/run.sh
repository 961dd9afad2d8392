#!/usr/bin/env bash
# Builds the Rust host with plain rustc and runs it. Fails if the library, the build or the run fails.
set -eu
cd "$(dirname "$0")/../.."
. hosts/library.sh
out=$(mktemp -d)
trap 'rm -rf "$out"' EXIT
rustc --edition 2024 -O -D warnings -o "$out/host" hosts/rust/host.rs "${archives[@]/#/-Clink-arg=}"
"$out/host" examples/high_water.table examples/high_water.feed examples/high_water.expect
