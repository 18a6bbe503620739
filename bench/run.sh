#!/bin/sh
# Builds the program of sweep_times.rt.txt in a copy of the repository, and runs it on the boards of standard input.
set -e
here=$(cd "$(dirname "$0")" && pwd)
copy=$(mktemp -d)
trap 'rm -rf "$copy"' EXIT
for part in HANDLES crates.txt crates; do
    cp -r "$here/../$part" "$copy"
done
mkdir -p "$copy/crates/sweep_times/src"
cp "$here/sweep_times.rt.txt" "$copy/crates/sweep_times/src/main.rt"
echo 'sweep_times: grid_units pad_shapes ring_rules board' >> "$copy/crates.txt"
(cd "$copy" && git init -q)
cd "$copy/crates/sweep_times"
rt run > "$copy/log" 2>&1 < /dev/null || { cat "$copy/log"; exit 1; }
"$copy/crates/sweep_times/out/sweep_times"
