//! Raw records (operation 14) for `compare`: one for each clause by which 01 calls a graph broken, near misses,
//! and random ones. The Rust has no such record: what is expected here is from 01 alone.

use crate::model::Graph;
use crate::record::{self, Record};
use crate::scripts::{after, ask, change, event, extends, new, push, upto, wanted, Random, LAST, WALKS};
use crate::Feed;

/// A record with few runs, put together by hand: starts, each run's parents, frontier, seen lengths; the rest
/// follows from these.
pub fn by_hand(starts: &[u32], parents: &[&[u32]], frontier: &[u32], seen: &[u32]) -> Record {
    let parents = parents.iter().map(|list| list.to_vec()).collect();
    Record::of(&Graph { starts: starts.to_vec(), parents, frontier: frontier.to_vec(), seen: seen.to_vec(), changed: 0 })
}

fn with(record: &Record, edit: impl Fn(&mut Record)) -> Record {
    let mut edited = record.clone();
    edit(&mut edited);
    edited
}

/// A record that is full: 512 runs, 2,048 entries, 512 frontier events.
fn full() -> Record {
    let mut graph = Graph::after(600, &upto(511)).unwrap_or_else(|_| unreachable!());
    for run in 0..512u32 {
        let entries = if run < 8 { 0 } else if run < 8 + 32 { 5 } else { 4 };
        graph.parents.push((run - entries.min(run)..run).collect());
        graph.starts.push(601 + run);
        graph.seen.push(600);
    }
    graph.frontier.push(600 + 511);
    Record::of(&graph)
}

/// A name, the clause of 01's sentence that the record breaks (none: it is to be taken), and the record.
/// Each broken record breaks just this clause.
pub fn records() -> Vec<(&'static str, Option<&'static str>, Record)> {
    use record::*;
    // Runs 2..5, 5..6, 6..8, 8..9; the first three marked.
    let base = by_hand(&[2, 5, 6, 8, 9], &[&[], &[0], &[0, 1], &[1]], &[0, 1, 7, 8], &[2, 5, 6, 6]);
    // Runs 0..3, 3..5; both marked.
    let two = by_hand(&[0, 3, 5], &[&[], &[0]], &[4], &[0, 3]);
    let full = full();
    let none = Record::of(&Graph::new());
    let held_none = Record::of(&Graph::after(5, &[0, 2]).unwrap_or_else(|_| unreachable!()));
    let mut list: Vec<(&'static str, Option<&'static str>, Record)> = vec![
        ("base", None, base.clone()),
        ("two runs", None, two.clone()),
        ("full", None, full.clone()),
        ("no runs, empty frontier", None, none.clone()),
        ("no runs, a frontier whose last is not len-1", None, held_none.clone()),
        ("513 runs", Some(LIMIT), with(&full, |g| g.run_count = 513)),
        ("2,049 entries", Some(LIMIT), with(&full, |g| g.entry_count = 2049)),
        ("513 frontier events", Some(LIMIT), with(&full, |g| g.frontier_count = 513)),
        ("513 marks", Some(LIMIT), with(&full, |g| g.mark_count = 513)),
        ("4,294,967,295 runs", Some(LIMIT), with(&base, |g| g.run_count = LAST)),
        ("4,294,967,295 entries", Some(LIMIT), with(&base, |g| g.entry_count = LAST)),
        ("4,294,967,295 frontier events", Some(LIMIT), with(&base, |g| g.frontier_count = LAST)),
        ("4,294,967,295 marks", Some(LIMIT), with(&base, |g| g.mark_count = LAST)),
        ("an empty last run", Some(STARTS), by_hand(&[0, 3, 3], &[&[], &[0]], &[2], &[0, 3])),
        ("a last run that falls", Some(STARTS), by_hand(&[0, 3, 2], &[&[], &[0]], &[1], &[0, 3])),
        ("an empty first run", Some(STARTS), by_hand(&[3, 3, 5], &[&[], &[0]], &[4], &[3, 3])),
        ("the last run one event", None, by_hand(&[0, 3, 4], &[&[], &[0]], &[3], &[0, 3])),
        ("groups that begin at 1", Some(GROUPS), with(&two, |g| {
            g.parent_starts[..3].copy_from_slice(&[1, 1, 2]);
            g.entry_count = 2;
        })),
        ("no runs, one entry, the groups begin at 1", Some(GROUPS), with(&none, |g| {
            g.parent_starts[0] = 1;
            g.entry_count = 1;
        })),
        ("no runs, one entry", Some(GROUPS), with(&none, |g| g.entry_count = 1)),
        ("groups that fall", Some(GROUPS), with(&by_hand(&[0, 1, 2, 3, 4], &[&[], &[0], &[], &[0]], &[3], &[0, 1, 1, 1]), |g| {
            g.parent_starts[..5].copy_from_slice(&[0, 0, 1, 0, 1]);
            g.entry_count = 1;
            g.parents[1] = 0;
        })),
        ("groups that end before the entry count", Some(GROUPS), with(&two, |g| g.parent_starts[2] = 0)),
        ("groups that end past the entry count", Some(GROUPS), with(&two, |g| g.entry_count = 0)),
        ("groups that end at 4,294,967,295", Some(GROUPS), with(&two, |g| g.parent_starts[2] = LAST)),
        ("parents falling", Some(PARENTS), with(&base, |g| g.parents[1..3].copy_from_slice(&[1, 0]))),
        ("a parent twice", Some(PARENTS), with(&base, |g| g.parents[1..3].copy_from_slice(&[1, 1]))),
        ("a run its own parent", Some(PARENTS), with(&two, |g| g.parents[0] = 1)),
        ("a later run a parent", Some(PARENTS), with(&base, |g| g.parents[0] = 3)),
        ("run 0 with a parent", Some(PARENTS), with(&two, |g| g.parent_starts[..3].copy_from_slice(&[0, 1, 1]))),
        ("the parent 4,294,967,295", Some(PARENTS), with(&base, |g| g.parents[3] = LAST)),
        ("another parent", None, with(&base, |g| g.parents[3] = 2)),
        ("a frontier falling", Some(FRONTIER), with(&base, |g| g.frontier[..2].copy_from_slice(&[1, 0]))),
        ("a frontier event twice", Some(FRONTIER), with(&base, |g| g.frontier[..2].copy_from_slice(&[1, 1]))),
        ("a frontier event at len", Some(FRONTIER), with(&base, |g| g.frontier[3] = 9)),
        ("no runs, a frontier event at len", Some(FRONTIER), with(&held_none, |g| g.frontier[1] = 5)),
        ("no runs, the last frontier event len-1", None, with(&held_none, |g| g.frontier[1] = 4)),
        ("no runs, no events, a frontier event", Some(FRONTIER), with(&none, |g| g.frontier_count = 1)),
        ("a last frontier event below len-1", Some(FRONTIER), with(&two, |g| g.frontier[0] = 3)),
        ("an empty frontier with runs", Some(FRONTIER), with(&two, |g| {
            g.frontier_count = 0;
            g.frontier[0] = 0;
        })),
        ("another frontier event", None, with(&base, |g| g.frontier[2] = 2)),
        ("a seen length below first held", Some(SEEN), with(&base, |g| {
            g.seen[3] = 1;
            g.mark_count = 0;
            g.marks.fill(0);
        })),
        ("a seen length at first held", None, with(&base, |g| {
            g.seen[3] = 2;
            g.mark_count = 1;
            g.marks.fill(0);
        })),
        ("a seen length above its run's start", Some(SEEN), with(&two, |g| g.seen[1] = 4)),
        ("run 0's seen length above its start", Some(SEEN), with(&two, |g| g.seen[0] = 1)),
        ("a seen length at its run's start", None, with(&base, |g| {
            g.seen[3] = 8;
            g.mark_count = 4;
            g.marks[3] = 3;
        })),
        ("a mark too many", Some(MARKS), with(&base, |g| {
            g.mark_count = 4;
            g.marks[3] = 3;
        })),
        ("a mark missing", Some(MARKS), with(&base, |g| {
            g.mark_count = 2;
            g.marks[2] = 0;
        })),
        ("no marks", Some(MARKS), with(&two, |g| {
            g.mark_count = 0;
            g.marks.fill(0);
        })),
        ("a wrong mark", Some(MARKS), with(&base, |g| g.marks[2] = 3)),
        ("a mark that is no run", Some(MARKS), with(&base, |g| g.marks[2] = LAST)),
        ("marks falling", Some(MARKS), with(&two, |g| g.marks[..2].copy_from_slice(&[1, 0]))),
        ("a mark twice", Some(MARKS), with(&two, |g| g.marks[1] = 0)),
        ("no runs, a mark", Some(MARKS), with(&none, |g| g.mark_count = 1)),
        ("changed_from past the run count", Some(CHANGED), with(&base, |g| g.changed = 5)),
        ("changed_from 4,294,967,295", Some(CHANGED), with(&base, |g| g.changed = LAST)),
        ("changed_from at the run count", None, with(&base, |g| g.changed = 4)),
        ("no runs, changed_from 1", Some(CHANGED), with(&none, |g| g.changed = 1)),
    ];
    type Array = fn(&mut Record) -> &mut Vec<u32>;
    let arrays: [(&'static str, &'static str, Array, usize); 6] = [
        ("a start past the run count", "the last place of the starts", |g| &mut g.starts, 5),
        ("a parent start past the run count", "the last place of the parent starts", |g| &mut g.parent_starts, 5),
        ("a parent past the entry count", "the last place of the parents", |g| &mut g.parents, 4),
        ("a frontier event past its count", "the last place of the frontier", |g| &mut g.frontier, 4),
        ("a seen length past the run count", "the last place of the seen lengths", |g| &mut g.seen, 4),
        ("a mark past its count", "the last place of the marks", |g| &mut g.marks, 3),
    ];
    for (nth, (first, last, array, count)) in arrays.into_iter().enumerate() {
        list.push((first, Some(PADDING), with(&base, |g| array(g)[count] = 1)));
        list.push((last, Some(PADDING), with(&base, |g| array(g)[PLACES[nth] - 1] = LAST)));
        list.push((first, Some(PADDING), with(&none, |g| array(g)[1] = 7)));
    }
    list
}

/// Every call, with input that a graph may take or refuse.
fn every_call(feed: &mut Feed) {
    for call in [
        vec![13],
        vec![10, 0],
        vec![10, 4],
        vec![10, LAST],
        vec![11, 3],
        vec![11, LAST],
        extends(&[]),
        extends(&[8]),
        extends(&[1, 0]),
        vec![5, 0, 12],
        vec![5, 1, 2],
        vec![5, 9, 0],
        vec![8, 9],
        vec![8, 0],
        vec![9, 1, 9],
        vec![9, 2, 0],
        vec![9, 9, 9],
        wanted(&[2, 5], 1),
        wanted(&[2, 6, 7, 8], 0),
        wanted(&[2], 9),
        vec![3, 0],
        vec![3, 4],
        vec![13],
        vec![3, 5],
        push(&[], 0),
        push(&[1, 0], 1),
        push(&[LAST], 1),
        push(&[], LAST),
        push(&[3], 1),
        vec![13],
        push(&[], 1),
        push(&[8], 1),
        vec![13],
        vec![4],
        vec![4],
        vec![13],
    ] {
        feed.call(call);
    }
    if WALKS {
        feed.call(vec![6, 0, 1, 0, 0, 9, 9]);
        feed.call(vec![6, 1, 0, 2, 0, 0, 0]);
        feed.call(vec![7, 9, 9]);
        feed.call(vec![7, 0, 0]);
    }
}

/// The records above (`all`, or the first of each clause), each with every call, and a fresh graph after it.
/// Panics if one does not break just the clause that it is to break.
pub fn by_clause(feed: &mut Feed, all: bool) {
    let mut shown = vec![];
    for (name, clause, record) in records() {
        assert_eq!(record.faults(), Vec::from_iter(clause), "the record '{name}'");
        if shown.contains(&clause) && !all {
            continue;
        }
        shown.push(clause);
        feed.call(record.call());
        every_call(feed);
        feed.call(if clause.is_some() { after(3, &[0, 1]) } else { new() });
        feed.call(vec![13]);
        feed.call(push(&[], 2));
        feed.call(vec![13]);
    }
}

/// A few earlier runs.
pub fn any_parents(r: &mut Random, run: u32) -> Vec<u32> {
    let mut parents: Vec<u32> = (0..r.below(5)).map(|_| r.below(run)).filter(|&parent| parent < run).collect();
    parents.sort();
    parents.dedup();
    parents
}

/// The graph of a record that is not broken, whether calls can make it or not; `parents` tells those of each run.
pub fn any_graph(r: &mut Random, runs: u32, mut parents: impl FnMut(&mut Random, u32) -> Vec<u32>) -> Graph {
    let first = [0, r.below(9), r.below(1 << 31)][r.below(3) as usize];
    let longest = [1, 3, 1 << 21][r.below(3) as usize];
    let mut graph = Graph::after(first, &[]).unwrap_or_else(|_| unreachable!());
    for run in 0..runs {
        let parents = parents(r, run);
        let start = graph.len();
        let seen = match r.below(4) {
            0 => start,
            1 => graph.first_held(),
            2 => r.pick(&graph.starts),
            _ => first + r.below(start - first + 1),
        };
        graph.parents.push(parents);
        graph.seen.push(seen);
        graph.starts.push(start + 1 + r.below(longest));
    }
    let len = graph.len();
    let mut frontier: Vec<u32> = (0..r.below(4)).map(|_| event(r, &graph)).filter(|&event| event < len).collect();
    if runs > 0 {
        frontier.push(len - 1);
    }
    frontier.sort();
    frontier.dedup();
    graph.frontier = frontier;
    graph.changed = r.below(runs + 1);
    graph
}

/// Random records, most of them with one word changed, and calls on what comes of it.
pub fn random(feed: &mut Feed, count: u32, seed: u64) {
    for nth in 0..count {
        let mut r = Random((seed << 32) + (1 << 31) + nth as u64);
        let runs = if r.one_in(30) { r.below(513) } else { r.below(9) };
        let record = Record::of(&any_graph(&mut r, runs, any_parents));
        let mut call = record.call();
        if !r.one_in(3) {
            let counts = [record.run_count + 1, record.run_count + 1, record.entry_count, record.frontier_count, record.run_count, record.mark_count];
            let place = if r.one_in(4) {
                1 + r.below(5) as usize
            } else {
                let array = r.below(6) as usize;
                let begin = 6 + record::PLACES[..array].iter().sum::<usize>();
                let used = (counts[array] as usize + 1).min(record::PLACES[array]);
                begin + if r.one_in(8) { r.below(record::PLACES[array] as u32) as usize } else { r.below(used as u32) as usize }
            };
            call[place] = match r.below(6) {
                0 => call[place].wrapping_add(1),
                1 => call[place].wrapping_sub(1),
                2 => r.below(9),
                3 => LAST,
                4 => r.pick(&record.starts[..=record.run_count as usize]),
                _ => 0,
            };
        }
        feed.call(call);
        feed.call(vec![13]);
        for _ in 0..3 + r.below(10) {
            if r.one_in(3) { ask(feed, &mut r) } else { change(feed, &mut r, 4) }
        }
    }
}
