#!/bin/sh
# Answers a script of calls on standard input (the trace program's words) from the unchanged Rust.
# RUST_SRC: as in differences.sh.
set -eu
. "$(dirname "$0")/rust.sh"
over_rust oracle
"$out/oracle"
