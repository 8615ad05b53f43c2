#!/bin/sh
# Times full replay and pushes, ours against the unchanged Rust, and our archive points and wanted parents, on the shapes of docs/PERFORMANCE.md,
# and prints its four tables.
# Argument: how many rounds (9 if there is none). RUST_SRC: as in differences.sh.
# SPEED: the speed program (crates/speed/out/speed; proved and built by `rt run` there if missing).
set -eu
. "$(dirname "$0")/rust.sh"
over_rust speed
speed=${SPEED:-$here/../crates/speed/out/speed}
[ -x "$speed" ] || (cd "$here/../crates/speed" && rt run <stdin >/dev/null)
"$out/speed" "$speed" "$@"
