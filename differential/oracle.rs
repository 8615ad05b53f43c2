//! Answers a script of calls (the trace program's input: little-endian 32-bit words) from the Rust,
//! in the trace program's lines. `answers.rs` says which answers are the Rust's and which 01's model's;
//! where those two part the program says so and ends with a status other than 0.

mod answers;
#[allow(dead_code)]
mod calls;
#[allow(dead_code)]
mod model;
#[allow(dead_code)]
mod record;

use std::io::{stdin, stdout, BufWriter, Read, Write};

fn main() {
    let mut bytes = vec![];
    stdin().read_to_end(&mut bytes).expect("a script");
    let mut out = BufWriter::new(stdout());
    for line in answers::answer_script(&bytes) {
        writeln!(out, "{line}").unwrap();
    }
}
