//! 02, F-6, for `compare`: the archive points of all small graphs, of random ones that have many, at the limits, and of records by hand.
//! The Rust has none: they are the model's (`archive_points`).

use crate::model::Graph;
use crate::record::Record;
use crate::records::{any_graph, any_parents, by_hand};
use crate::scripts::{begin, c1, event, new, push, upto, Random, Taken};
use crate::Feed;

/// The graph, with its marks, and its points in rooms that are too short, just enough and one more. `made`: whether calls made the graph; then
/// every marked run starts at a point, and it panics where one does not.
fn ask_points(feed: &mut Feed, made: bool) {
    feed.call(vec![13]);
    let graph = feed.graph();
    let points = graph.archive_points();
    let marked: Vec<u32> = graph.marks().iter().map(|&run| graph.starts[run as usize]).collect();
    let astray = marked.iter().filter(|start| !points.contains(start)).count();
    assert!(!made || astray == 0, "a marked run starts at no archive point: points {points:?}, starts of marked runs {marked:?}, {}", feed.last_line());
    let count = points.len() as u32;
    let mut rooms = vec![count / 2, count.saturating_sub(1), count, count + 1];
    rooms.dedup();
    for room in rooms {
        feed.call(vec![8, room]);
    }
    feed.noted("archive points, each graph's once", count as u64);
    feed.noted("archive points at the start of an unmarked run", points.iter().filter(|point| !marked.contains(point)).count() as u64);
    feed.noted("graphs with two archive points or more", (count > 1) as u64);
    if !made {
        feed.noted("marked runs of records by hand that start at no archive point", astray as u64);
    }
}

/// 02's own case, and others with their points. Panics where the model tells others.
fn said(feed: &mut Feed) {
    let c1_and = |list: &[u32]| [c1(), vec![push(list, 1)]].concat();
    let made = |calls: Vec<Vec<u32>>| [vec![new()], calls].concat();
    for (calls, line) in [
        (made(c1()), "archive 0 3 : 0 1 3"),
        (made(c1_and(&[3])), "archive 0 3 : 0 1 3"),
        (made(c1_and(&[3, 4])), "archive 0 4 : 0 1 3 5"),
        (made(c1_and(&[])), "archive 0 1 : 0"),
        (made(vec![push(&[], 1), push(&[], 2), push(&[0, 1, 2], 1)]), "archive 0 2 : 0 3"),
        // Both runs are marked.
        (vec![by_hand(&[0, 1, 2], &[&[], &[]], &[0, 1], &[0, 1]).call()], "archive 0 1 : 0"),
    ] {
        let made = calls.len() > 1;
        calls.into_iter().for_each(|call| feed.call(call));
        feed.call(vec![8, 9]);
        assert_eq!(feed.last_line(), line);
        ask_points(feed, made);
    }
}

/// After all lists of up to `calls` calls from `new`, pushes of 1 or 2 events and run starts, and of one call fewer from every `after` of 1 or 2
/// events, that the graph takes.
pub fn small(feed: &mut Feed, calls: u32) {
    said(feed);
    let each = |feed: &mut Feed, calls: &[Vec<u32>], _: &[u32]| {
        calls.iter().for_each(|call| feed.call(call.clone()));
        ask_points(feed, true);
    };
    Taken { longest: 2, takes: false, each }.all(feed, calls);
}

/// The parents of up to `count` runs, by their numbers: layers of some runs, each on all heads that its layer found; now and then one names more, or
/// leaves one out. They end where there would be more than 2,048 entries.
pub fn layers(r: &mut Random, count: u32) -> Vec<Vec<u32>> {
    let (width, odd) = (r.pick(&[1, 2, 2, 3, 3, 4, 6, 20, 1 + count / 4]), r.pick(&[6, 20, 60]));
    let (mut all, mut heads, mut entries): (Vec<Vec<u32>>, Vec<u32>, usize) = (vec![], vec![], 0);
    let (mut found, mut left) = (vec![], 0);
    for run in 0..count {
        if left == 0 {
            (found, left) = (heads.clone(), if r.one_in(5) { 1 } else { width.min(2) + r.below(width - 1) });
        }
        left -= 1;
        let mut list = found.clone();
        if run > 0 && r.one_in(odd) {
            list.extend((0..=r.below(3)).map(|_| r.below(run)));
        }
        if !list.is_empty() && r.one_in(odd) && (list.len() > 1 || r.one_in(8)) {
            list.remove(r.below(list.len() as u32) as usize);
        }
        list.sort();
        list.dedup();
        entries += list.len();
        if entries > 2048 {
            break;
        }
        heads.retain(|head| !list.contains(head));
        heads.push(run);
        all.push(list);
    }
    all
}

/// A push for each of these runs, of up to `longest` events, as long as they are taken, now and then with a parent that is not held. Asked at the
/// end; or after each, and then now and then there is a run start too.
fn pushed(feed: &mut Feed, r: &mut Random, runs: &[Vec<u32>], longest: u32, each: bool) {
    let first = feed.graph().first_held();
    let mut ends: Vec<u32> = vec![];
    for parents in runs {
        let mut list: Vec<u32> = parents.iter().map(|&run| ends[run as usize]).collect();
        if first > 0 && r.one_in(4) {
            list.insert(0, r.below(first));
        }
        feed.call(push(&list, 1 + r.below(longest)));
        if !feed.last_line().starts_with("push 0 ") {
            break;
        }
        ends.push(feed.graph().len() - 1);
        if each && r.one_in(6) {
            let at = event(r, feed.graph());
            feed.call(vec![3, at]);
        }
        if each {
            ask_points(feed, true);
        }
    }
    if !each {
        ask_points(feed, true);
    }
}

/// `count` random graphs in layers: most of up to 20 runs, some of up to 100, one in fifty of up to 512.
pub fn random(feed: &mut Feed, count: u32, seed: u64) {
    for nth in 0..count {
        let mut r = Random((seed << 32) + (7 << 29) + nth as u64);
        let runs = match nth % 50 {
            49 => [512, 512, 300 + r.below(213)][r.below(3) as usize],
            45..49 => 21 + r.below(80),
            _ => 2 + r.below(19),
        };
        begin(feed, &mut r, false);
        let longest = r.pick(&[1, 2, 3, 1 << 22]);
        let runs = layers(&mut r, runs);
        pushed(feed, &mut r, &runs, longest, runs.len() <= 20);
    }
}

/// The largest graphs, by each run's parents: every run a point, every second, two of them, or one, where the last run takes away all others.
pub fn largest() -> Vec<Vec<Vec<u32>>> {
    // The four runs before each, five for the last ten: every run a point. The two layers of two before each, one more for the last twelve: every second.
    let chain: Vec<Vec<u32>> = (0..512u32).map(|run| (run.saturating_sub(if run < 502 { 4 } else { 5 })..run).collect()).collect();
    let pairs: Vec<Vec<u32>> = (0..512u32).map(|run| ((run / 2 * 2).saturating_sub(if run < 500 { 4 } else { 5 })..run / 2 * 2).collect()).collect();
    let beside = |from: u32, to: u32| (0..to - from).map(move |_| upto(from)).collect::<Vec<_>>();
    // None but the last has seen the second root.
    let late = (0..511u32).map(|run| (run.saturating_sub(3)..run).filter(|&parent| run > 1 && parent != 1).collect()).chain([vec![1, 510]]).collect();
    vec![
        [chain[..511].to_vec(), vec![vec![]]].concat(),
        [chain[..511].to_vec(), vec![vec![0]]].concat(),
        chain,
        pairs,
        late,
        beside(0, 512),
        [beside(0, 511), beside(511, 512)].concat(),
        [beside(0, 511), vec![upto(510)]].concat(),
        [beside(0, 511), vec![(1..511).collect()]].concat(),
        [beside(0, 45), beside(45, 90)].concat(),
        [beside(0, 45), beside(45, 89), vec![upto(44)]].concat(),
        [beside(0, 4), beside(4, 512)].concat(),
    ]
}

/// These, made by pushes and, with every run marked, by hand; and one push that names every event before it.
pub fn at_limits(feed: &mut Feed, seed: u64) {
    let mut r = Random((seed << 32) + (9 << 28));
    for runs in largest() {
        feed.call(new());
        pushed(feed, &mut r, &runs, 3, false);
        let mut graph = any_graph(&mut r, runs.len() as u32, |_, run| runs[run as usize].clone());
        graph.seen = graph.starts[..graph.runs()].to_vec();
        asked_by_hand(feed, &graph);
    }
    feed.call(new());
    feed.call(push(&[], 511));
    feed.call(push(&upto(511), 1));
    ask_points(feed, true);
}

fn asked_by_hand(feed: &mut Feed, graph: &Graph) {
    let record = Record::of(graph);
    assert!(record.faults().is_empty(), "a record by hand is broken: {:?}", record.faults());
    feed.call(record.call());
    ask_points(feed, false);
}

/// `count` records by hand that are not broken, most of up to 9 runs, one in forty of up to 512: with any parents, or in layers; with any seen
/// lengths, or most of them their run's start, so that marks are many and few of them true.
pub fn records(feed: &mut Feed, count: u32, seed: u64) {
    for nth in 0..count {
        let mut r = Random((seed << 32) + (11 << 28) + nth as u64);
        let runs = if nth % 40 == 39 { r.below(513) } else { r.below(10) };
        let lists = if r.one_in(3) { (0..runs).map(|run| any_parents(&mut r, run)).collect() } else { layers(&mut r, runs) };
        let mut graph = any_graph(&mut r, lists.len() as u32, |_, run| lists[run as usize].clone());
        let high = r.pick(&[0, 4, 60]);
        for run in 0..graph.runs() {
            if !r.one_in(high + 1) {
                graph.seen[run] = graph.starts[run];
            }
        }
        asked_by_hand(feed, &graph);
    }
}
