#!/bin/sh
# Holds the trace program against the unchanged Rust: every line of many scripts. Status 1 and a smallest script if two differ.
# Arguments: how many random scripts (10,000 if there is none), a seed (1), words of a part's title, to run that part alone.
# Or: --sample DIR, which writes DIR/stdin, a script of every kind of call, and DIR/stdout, the Rust's lines, and needs no
# trace program.
# RUST_SRC: as in differences.sh. TRACE: the trace program (crates/trace/out/trace; proved and built by `rt run` there if missing).
set -eu
. "$(dirname "$0")/rust.sh"
over_rust compare
if [ "${1:-}" = --sample ]; then
    "$out/compare" "$@"
    exit
fi
trace=${TRACE:-$here/../crates/trace/out/trace}
[ -x "$trace" ] || (cd "$here/../crates/trace" && rt run <stdin >/dev/null)
"$out/compare" "$trace" "$@"
