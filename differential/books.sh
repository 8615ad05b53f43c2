#!/bin/sh
# Holds the replay program against document 01's account of the book (books.rs), and the books that it takes against the unchanged Rust:
# all small books, random ones, damaged ones, the longest. Then failed reads and writes and endless inputs, with tools/replay and
# without. Status 1 and the book if two differ.
# Arguments: how many random books (60,000 if there is none; each is damaged as well), a seed (1).
# RUST_SRC: as in differences.sh. REPLAY: the replay program (crates/replay/out/replay; proved and built by `rt run` there if missing).
set -eu
. "$(dirname "$0")/rust.sh"
over_rust books
replay=${REPLAY:-$here/../crates/replay/out/replay}
[ -x "$replay" ] || (cd "$here/../crates/replay" && rt run <stdin >/dev/null)
"$out/books" "$replay" "$@"
