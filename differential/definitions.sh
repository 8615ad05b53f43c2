#!/bin/sh
# Holds the definitions of crates/model/specs against the Rust: random call lists, answered by the Rust, are written as equations
# and checked by computing, in a copy of lists and model. Arguments: how many lists (60 if there is none), a seed (1).
# RUST_SRC: the folder with the Rust's lib.rs and walk.rs (../shared/docs/src from the top of the repository).
set -eu
count=${1:-60} seed=${2:-1}
. "$(dirname "$0")/rust.sh"
over_rust sample
mkdir -p "$out/copy/crates"
cp -R "$here/../crates/lists" "$here/../crates/model" "$out/copy/crates/"
grep -E '^(lists|model):' "$here/../crates.txt" >"$out/copy/crates.txt"
cd "$out/copy"
left=$count file=0
while [ "$left" -gt 0 ]; do
    n=$((left < 30 ? left : 30))
    python3 "$here/definitions.py" "$out/sample" "$((seed * 1000 + file))" "$n" >"crates/model/proofs/Sample$file.antt"
    echo "pub mod Sample$file" >>crates/model/proofs/Lib.antt
    left=$((left - n)) file=$((file + 1))
done
(cd crates/model && rt check)
echo "$count call lists: the definitions compute what the Rust answered"
