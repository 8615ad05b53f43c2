//! Walks and full replays for `compare`: all of small graphs, every room of sampled ones, random graphs to the limits.

use crate::answers::{ROW_ROOM, STEP_ROOM};
use crate::model::Graph;
use crate::scripts::{after, event, new, push, upto, Random, LAST};
use crate::Feed;

/// A range's walk, `known` and `first`, with the rooms.
fn walk(from: u32, to: u32, known: u32, first: u32, rows: u32, steps: u32) -> Vec<u32> {
    vec![6, from, to, known, first, rows, steps]
}

/// Words that no row area and no step list of `width` runs pass, as far as the program has them.
pub fn enough(width: u32) -> (u32, u32) {
    ((width * (width + 1) / 2).min(ROW_ROOM), (3 * width * (width + 2)).min(STEP_ROOM))
}

/// Rooms for a range of `width` runs: most are enough, some too short, some all that the program has.
pub fn rooms(r: &mut Random, width: u32) -> (u32, u32) {
    let (mut rows, mut steps) = enough(width);
    match r.below(18) {
        0..3 => rows = r.below(4 * width + 2).min(ROW_ROOM),
        3..6 => steps = r.below(12 * width + 2).min(STEP_ROOM),
        6 => (rows, steps) = (r.below(rows + 1), r.below(12 * width + 2).min(STEP_ROOM)),
        7 if r.one_in(20) => (rows, steps) = (ROW_ROOM, STEP_ROOM),
        _ => {}
    }
    (rows, steps)
}

/// All walks of a small graph: every range, also reversed and outside; each range inside with `known` from 0 to its length
/// and one above, `first` from 0 to two above.
pub fn every_walk(feed: &mut Feed) {
    let runs = feed.graph().runs() as u32;
    let (rows, steps) = enough(runs);
    for from in 0..=runs + 1 {
        for to in 0..=runs + 1 {
            if to < from || runs < to {
                feed.call(walk(from, to, 0, 0, rows, steps));
                continue;
            }
            for known in 0..=to - from + 1 {
                for first in 0..=to - from + 2 {
                    feed.call(walk(from, to, known, first, rows, steps));
                }
            }
        }
    }
}

/// Every range inside a small graph, with `known` and `first` 0, and with others.
pub fn every_range(feed: &mut Feed, odd: u32) {
    let runs = feed.graph().runs() as u32;
    let (rows, steps) = enough(runs);
    for from in 0..=runs {
        for to in from..=runs {
            feed.call(walk(from, to, odd % (to - from + 2), odd % (to - from + 3), rows, steps));
            feed.call(walk(from, to, 0, 0, rows, steps));
        }
    }
}

/// A call that takes a row room and a step room, with every pair of them from 0 to more than enough; where these are many,
/// every row room with steps enough, every step room with rows enough, and random pairs.
fn every_room(feed: &mut Feed, r: &mut Random, rows: u32, steps: u32, call: impl Fn(u32, u32) -> Vec<u32>) {
    if (rows + 2) * (steps + 4) <= 3000 {
        for row_room in 0..=rows + 1 {
            for step_room in 0..=steps + 3 {
                feed.call(call(row_room, step_room));
            }
        }
        return;
    }
    for row_room in 0..=rows + 1 {
        feed.call(call(row_room, steps));
        feed.call(call(row_room, r.below(steps + 1)));
    }
    for step_room in 0..=steps + 3 {
        feed.call(call(rows, step_room));
        feed.call(call(r.below(rows + 1), step_room));
    }
}

/// The words that a walk writes.
fn needs(graph: &Graph, from: u32, to: u32, known: u32, first: u32) -> (u32, u32) {
    graph.walk(from, to, known, first).map_or((0, 0), |walked| (walked.rows.concat().len() as u32, 3 * walked.steps.len() as u32))
}

fn every_room_of_walk(feed: &mut Feed, r: &mut Random, from: u32, to: u32, known: u32, first: u32) {
    let (rows, steps) = needs(feed.graph(), from, to, known, first);
    every_room(feed, r, rows, steps, |row_room, step_room| walk(from, to, known, first, row_room, step_room));
}

fn every_room_of_replay(feed: &mut Feed, r: &mut Random) {
    let (mut rows, mut steps) = (0, 0);
    let graph = feed.graph();
    for [kind, from, to] in if graph.runs() == 0 { vec![] } else { graph.cut(0).unwrap_or_default() } {
        let of_range = if kind == crate::model::LINEAR { (0, 3 * (to - from)) } else { needs(graph, from, to, 0, 0) };
        rows = rows.max(of_range.0);
        steps += 3 + of_range.1;
    }
    every_room(feed, r, rows, steps, |row_room, step_room| vec![7, row_room, step_room]);
}

/// Walks and replays in every room: all graphs of up to four single events, whole; `count` random graphs of up to 12 runs, and
/// a twentieth as many of up to 60, each with its replay, its whole range and a random one.
pub fn in_every_room(feed: &mut Feed, count: u32, seed: u64) {
    let mut r = Random((seed << 32) + (3 << 30));
    for events in 0..=4 {
        for bits in 0..1u32 << (events * u32::saturating_sub(events, 1) / 2) {
            crate::scripts::single_events(feed, events, bits);
            let runs = feed.graph().runs() as u32;
            every_room_of_walk(feed, &mut r, 0, runs, 0, 0);
            every_room_of_replay(feed, &mut r);
        }
    }
    for nth in 0..count {
        let runs = if nth % 20 == 19 { 13 + r.below(48) } else { 2 + r.below(11) };
        graph(feed, &mut r, runs);
        let runs = feed.graph().runs() as u32;
        every_room_of_replay(feed, &mut r);
        every_room_of_walk(feed, &mut r, 0, runs, 0, 0);
        let (a, b) = (r.below(runs + 1), r.below(runs + 1));
        let width = a.max(b) - a.min(b);
        let (known, first) = (r.below(width + 1), r.below(width + 3));
        every_room_of_walk(feed, &mut r, a.min(b), a.max(b), known, first);
    }
}

/// The parents of a push, by the shape of a graph that is walked.
fn parents(r: &mut Random, graph: &Graph, shape: u32, tips: &mut Vec<u32>) -> Vec<u32> {
    let len = graph.len();
    if len == 0 {
        return vec![];
    }
    let ends: Vec<u32> = graph.starts[1..].iter().map(|&end| end - 1).collect();
    let mut list = match shape {
        // Roots, and joins of some.
        0 => match r.below(8) {
            0 => graph.frontier.iter().copied().filter(|_| r.one_in(3)).collect(),
            1 => (0..1 + r.below(4)).map(|_| event(r, graph)).collect(),
            _ => vec![],
        },
        // A few branches, that now and then take in one another.
        1 => {
            let one = r.below(tips.len() as u32) as usize;
            match r.below(9) {
                0 => vec![tips[one], r.pick(tips)],
                1 => tips.clone(),
                _ => vec![tips[one]],
            }
        }
        // Forks on a trunk: from some event not long ago.
        2 => match r.below(3) {
            0 => vec![len - 1],
            1 if !ends.is_empty() => vec![ends[ends.len() - 1 - r.below(ends.len().min(9) as u32) as usize]],
            _ => vec![event(r, graph)],
        },
        // Many parents, the ends of runs.
        3 => (0..if ends.is_empty() { 0 } else { r.below(9) }).map(|_| r.pick(&ends)).collect(),
        // Any events, lately pushed.
        4 => (0..r.below(4)).map(|_| len - 1 - r.below(len.min(30))).collect(),
        // After a few long roots: on one or two of them, or on the last.
        5 => match r.below(5) {
            _ if graph.runs() < 3 => vec![],
            0 => vec![len - 1],
            1 => vec![r.pick(&ends)],
            _ => vec![r.pick(&ends[..3]), r.pick(&ends)],
        },
        // Two that write at a time, and take in each other's.
        _ => {
            if graph.frontier.len() > 1 && r.one_in(4) { graph.frontier.clone() } else { vec![r.pick(tips)] }
        }
    };
    list.sort();
    list.dedup();
    list.retain(|&event| event < len);
    list
}

/// A random graph of about `runs` runs: from `new` or `after`, with single events, short runs, or so long ones that the events
/// that move pass u32.
fn graph(feed: &mut Feed, r: &mut Random, runs: u32) {
    let (shape, long) = (r.below(7), r.one_in(3));
    match r.below(4) {
        0 => {
            let tips = if runs > 100 { 500 + r.below(13) } else { r.below(5) };
            feed.call(after(600 + r.below(9), &upto(tips)));
        }
        _ => feed.call(new()),
    }
    let room = (LAST - feed.graph().len()) / (runs + 1);
    let mut tips = vec![0; if shape == 1 { 2 + r.below(4) } else { 2 } as usize];
    for _ in 0..2 * runs {
        if feed.graph().runs() as u32 >= runs {
            break;
        }
        let list = parents(r, feed.graph(), shape, &mut tips);
        let len = match shape {
            5 if feed.graph().runs() < 3 => LAST / 4,
            _ if long && shape != 5 => room - r.below(room / 3),
            _ => 1 + r.below([1, 2, 5, 90][shape as usize % 4]),
        };
        feed.call(push(&list, len));
        let (last, at) = (feed.graph().len().saturating_sub(1), r.below(tips.len() as u32) as usize);
        match tips.iter().position(|tip| list.contains(tip)) {
            Some(at) => tips[at] = last,
            None => tips[at] = last,
        }
    }
    feed.call(vec![13]);
}

/// Walks of the current graph: all of it in four ways, then `count` random ranges, and a replay.
fn walked(feed: &mut Feed, r: &mut Random, count: u32) {
    let runs = feed.graph().runs() as u32;
    let (rows, steps) = enough(runs);
    feed.call(vec![7, rows, steps]);
    let known = r.below(runs + 1);
    for (known, first) in [(0, 0), (runs, runs), (known, runs + 1 + r.below(9)), (known, r.below(runs + 1))].into_iter().take(count.max(2) as usize) {
        feed.call(walk(0, runs, known, first, rows, steps));
    }
    for _ in 0..count {
        let (a, b) = (r.below(runs + 1), r.below(runs + 1));
        let (from, to) = (a.min(b), a.max(b));
        let width = to - from;
        let known = match r.below(6) {
            0 | 1 => 0,
            2 => width,
            _ => r.below(width + 2),
        };
        let first = match r.below(6) {
            0 | 1 => 0,
            2 => width + r.below(3),
            3 => LAST - r.below(2),
            _ => r.below(width + 1),
        };
        let (rows, steps) = rooms(r, width);
        feed.call(walk(from, to, known, first, rows, steps));
    }
    let (rows, steps) = rooms(r, runs);
    feed.call(vec![7, rows, steps]);
}

/// `count` random graphs and their walks: most of up to 12 runs, some of up to 100, one in a hundred of up to 512.
pub fn random(feed: &mut Feed, count: u32, seed: u64) {
    for nth in 0..count {
        let mut r = Random((seed << 32) + (1 << 30) + nth as u64);
        let (runs, walks) = match nth % 100 {
            99 => ([512, 512, 300 + r.below(213)][r.below(3) as usize], 3),
            90..99 => (13 + r.below(88), 8),
            _ => (2 + r.below(11), 20),
        };
        graph(feed, &mut r, runs);
        walked(feed, &mut r, walks);
    }
}

/// Walks and replays at the limits: 512 runs, 2,048 entries, 512 frontier events.
pub fn at_limits(feed: &mut Feed, seed: u64) {
    let mut r = Random((seed << 32) + (5 << 29));
    // Roots.
    feed.call(new());
    (0..512).for_each(|_| feed.call(push(&[], 1 + r.below(3))));
    walked(feed, &mut r, 2);
    // 2,048 entries: five parents for each of the last runs, which are long.
    let len = 8_000_000;
    feed.call(new());
    (0..102).for_each(|_| feed.call(push(&[], len)));
    while feed.graph().runs() < 512 {
        let first = feed.graph().runs() as u32 - 100;
        let parts = (2048 - feed.graph().entries() as u32).min(5);
        let list: Vec<u32> = (0..parts).map(|part| len * (first + 20 * part + r.below(20) + 1) - 1).collect();
        feed.call(push(&list, len));
    }
    feed.call(vec![13]);
    walked(feed, &mut r, 2);
    // 512 frontier events, of them 508 not held, and four branches.
    feed.call(after(600, &upto(508)));
    let mut tips = [0; 4];
    for nth in 0..512 {
        let branch = nth % 4;
        let list = if nth < 4 { vec![] } else { vec![tips[branch]] };
        feed.call(push(&list, 3));
        tips[branch] = feed.graph().len() - 1;
    }
    feed.call(vec![13]);
    walked(feed, &mut r, 4);
    // All three: hundreds of parents, and hundreds of frontier events that are not held.
    feed.call(after(600, &upto(507)));
    feed.call(push(&[], 2_000_000_000));
    let named: Vec<u32> = (1..=490).map(|nth| 600 + 4_000_000 * nth).collect();
    for list in [&named[..], &named, &named, &named[402..]] {
        feed.call(push(list, 400_000_000));
    }
    feed.call(push(&[], 1));
    feed.call(vec![13]);
    walked(feed, &mut r, 2);
}

/// Walks and replays for the gate's own run: small graphs, some in every room, one with events whose moves pass u32.
pub fn sample(feed: &mut Feed) {
    let mut r = Random(7);
    // 01 accepts a `moved` above u32; the rooms of a replay over two ranges.
    feed.call(new());
    for (list, len) in [(&[][..], 1), (&[], 2147483646), (&[], 2147483640), (&[0, 2147483646], 1), (&[0, 4294967286], 1)] {
        feed.call(push(list, len));
    }
    feed.call(vec![7, 20, 99]);
    feed.call(new());
    for list in [&[][..], &[], &[0, 1], &[2], &[2], &[2]] {
        feed.call(push(list, 1));
    }
    for rows in 0..=7 {
        feed.call(vec![7, rows, 99]);
    }
    for steps in 0..=44 {
        feed.call(vec![7, 6, steps]);
    }
    for (runs, walks) in [(4, 6), (8, 6), (12, 6), (30, 4)] {
        graph(feed, &mut r, runs);
        walked(feed, &mut r, walks);
    }
}
