//! The cases C1 to C11 of 01 as calls, each with the line that 01's words ask for; and the walks of `Beyond` in crates/model/specs/Cases.antt.

use crate::scripts::{after, new, push, LAST};
use crate::Feed;

/// A call and its line; where 01 names no rows, `ROWS` stands for them.
type Said = (Vec<u32>, &'static str);

fn walk(from: u32, to: u32, known: u32, first: u32, rows: u32) -> Vec<u32> {
    vec![6, from, to, known, first, rows, 99]
}

/// Each case: its name and its calls.
fn cases() -> Vec<(&'static str, Vec<Said>)> {
    vec![
        ("C1", vec![
            (after(0, &[]), "after 0"),
            (push(&[], 1), "push 0 0 1"),
            (push(&[0], 1), "push 0 1 2"),
            (push(&[0], 1), "push 0 2 3"),
            (push(&[1, 2], 1), "push 0 3 4"),
            (push(&[1, 2], 1), "push 0 4 5"),
            (vec![7, 8192, 12288], "replay 0 10 3 : ROWS : 3 0 1 2 0 1 3 1 5 2 2 3 0 2 3 2 1 2 1 2 3 2 4 5 0 4 5 2 3 4"),
        ]),
        ("C2", vec![
            (walk(1, 5, 0, 0, 7), "walk 0 7 3 : ROWS : 2 2 3 0 2 3 2 1 2 1 2 3 2 4 5 0 4 5 2 3 4"),
            (walk(1, 5, 0, 0, 6), "walk 13 0 0 : ROWS :"),
        ]),
        ("C3", vec![(walk(1, 5, 1, 0, 7), "walk 0 6 3 : ROWS : 0 1 2 2 2 3 1 1 2 2 4 5 0 4 5 2 3 4")]),
        ("C4", vec![(walk(1, 5, 4, 0, 7), "walk 0 0 0 : ROWS :"), (walk(1, 5, 5, 0, 7), "walk 12 0 0 : :")]),
        ("C5", vec![(walk(2, 2, 0, 0, 7), "walk 0 0 0 : :"), (walk(0, 6, 0, 0, 7), "walk 9 0 0 : :")]),
        ("C6", vec![(new(), "new"), (push(&[], 0), "push 2 0 0"), (push(&[0], 1), "push 4 0 0")]),
        ("C7", vec![(new(), "new"), (push(&[], LAST), "push 0 0 4294967295"), (push(&[LAST - 1], 1), "push 5 0 0")]),
        ("C8", vec![(new(), "new"), (push(&[], 3), "push 0 0 3"), (push(&[1, 0], 1), "push 3 0 0"), (push(&[0, 0], 1), "push 3 0 0")]),
        ("C9", vec![
            (new(), "new"),
            (push(&[], 4), "push 0 0 4"),
            (push(&[1], 1), "push 0 4 5"),
            (vec![3, 3], "start 0 1"),
            (vec![3, 3], "start 0 1"),
            (vec![3, 2], "start 0 0"),
            (vec![3, 1], "start 0 0"),
            (vec![3, 0], "start 0 0"),
            (vec![3, 5], "start 0 0"),
        ]),
        ("C10", vec![
            (new(), "new"),
            (push(&[], 5), "push 0 0 5"),
            (vec![4], "take 0 0"),
            (push(&[4], 2), "push 0 5 7"),
            (push(&[4], 1), "push 0 7 8"),
            (vec![4], "take 0 0"),
        ]),
        ("C11", vec![(new(), "new"), (walk(0, 0, 0, 0, 0), "walk 0 0 0 : :")]),
    ]
}

/// Feeds all cases; panics where the Rust's line (or, where it has no answer, the model's) is not 01's. Answers the lines, numbered from 1, of each case.
pub fn feed_all(feed: &mut Feed) -> Vec<(&'static str, usize, usize)> {
    let mut lines = vec![];
    let mut at = 1;
    for (name, said) in cases() {
        let first = at;
        for (call, words) in said {
            let rows = call[0] == 6 && call[5] == 6;
            feed.call(call);
            let line = feed.last_line();
            let parts: Vec<&str> = line.split(" :").collect();
            let written = parts.get(1).map_or(0, |rows| rows.split_whitespace().count());
            let plain = if words.contains("ROWS") { format!("{} : ROWS :{}", parts[0], parts[2]) } else { line.to_string() };
            assert_eq!(plain, words, "{name}");
            // C2: seven row words; with room for six, five.
            assert!(!words.contains("ROWS") || written == if rows { 5 } else { 7 }, "{name}: {line}");
            at += 1;
        }
        lines.push((name, first, at - 1));
    }
    lines
}

/// The graphs and walks of `Beyond`: the pushes, the walk, its line up to the rows, its first steps.
fn beyond() -> Vec<(Vec<Vec<u32>>, [u32; 4], &'static str, &'static str)> {
    let branches = || vec![push(&[], 1), push(&[0], 1), push(&[0], 1), push(&[1], 1), push(&[2], 1)];
    let mut crowd = vec![push(&[], 1), push(&[], 1), push(&[0, 1], 1), push(&[0], 1)];
    crowd.extend((0..63).map(|_| push(&[], 1)));
    let lengths = |n: u32| vec![push(&[], 1), push(&[], n), push(&[], 1), push(&[], 3), push(&[], 4), push(&[n + 1], 1)];
    vec![
        (branches(), [1, 5, 1, 0], "walk 0 5 2", "2 3 4 0 1 2 0 3 4 2 2 3 2 4 5"),
        (branches(), [1, 5, 1, 2], "walk 0 7 4", "0 1 2 2 2 3 2 4 5 0 2 3 0 4 5 1 1 2 2 3 4"),
        (crowd, [0, 67, 2, 0], "walk 0 133 68", "0 1 2 2 3 4"),
        (lengths(119), [1, 6, 1, 0], "walk 0 8 124", "0 1 2 2 3 4 0 3 4 2 2 3 2 5 6 0 2 3 0 5 6 2 4 5"),
        (lengths(118), [1, 6, 1, 0], "walk 0 8 123", "0 1 2 2 2 3 2 5 6 0 2 3 0 5 6 2 3 4 0 3 4 2 4 5"),
    ]
}

/// Feeds them; panics where the Rust's line is another.
pub fn feed_beyond(feed: &mut Feed) {
    for (pushes, walk, answer, steps) in beyond() {
        feed.call(new());
        for call in pushes {
            feed.call(call);
        }
        feed.call([&[6][..], &walk, &[2400, 600]].concat());
        let parts: Vec<&str> = feed.last_line().split(" : ").collect();
        assert!(parts[0] == answer && parts[2].starts_with(steps), "{walk:?}: {parts:?}");
    }
}
