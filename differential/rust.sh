# To be sourced: builds the unchanged Rust, in release, into a temporary folder $out, which goes at the end.
# RUST_SRC: the folder with the Rust's lib.rs and walk.rs (../shared/docs/src from the top of the repository).
here=$(cd "$(dirname "$0")" && pwd)
rust=${RUST_SRC:-$here/../../shared/docs/src}
out=$(mktemp -d)
trap 'rm -rf "$out"' EXIT
rustc --edition 2021 -O --crate-type rlib --crate-name strider_graph --out-dir "$out" "$rust/lib.rs"

# A program of this folder over the Rust, built as $out/NAME
over_rust() {
    rustc --edition 2021 -O --extern strider_graph="$out/libstrider_graph.rlib" -o "$out/$1" "$here/$1.rs"
}
