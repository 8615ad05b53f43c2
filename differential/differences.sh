#!/bin/sh
# Shows the differences between the Rust, document 01 and the Eg-walker paper (docs/DIFFERENCES.md).
# Builds the unchanged Rust, in release, into a temporary folder; nothing of it stays.
# RUST_SRC: the folder with the Rust's lib.rs and walk.rs (../shared/docs/src from the top of the repository).
# An argument gives the calls per script in the search: 4 if there is none; 5 takes longer.
set -eu
. "$(dirname "$0")/rust.sh"
over_rust differences
"$out/differences" "$@"
