//! 02, F-4, for `compare`: run starts that were told true are made again after later calls. Each must be told true again and leave the graph
//! as it was, by the Rust's lines and, since these are compared, by the trace program's.

use crate::scripts::{begin, changing, new, push, upto, Random, Taken};
use crate::Feed;

/// The graph's line, and again after a run start at each of `told`. Panics where a run start is not told true or the graph is another.
fn ask_again(feed: &mut Feed, told: &[u32]) {
    feed.call(vec![13]);
    let graph = feed.last_line().to_string();
    for &at in told {
        feed.call(vec![3, at]);
        assert_eq!(feed.last_line(), "start 0 1", "event {at}, told true before, in {graph}");
        feed.call(vec![13]);
        assert_eq!(feed.last_line(), graph, "a run start at {at}, told true before, changed the graph");
    }
    feed.noted("run starts told true, made again: true, the graph as it was", told.len() as u64);
}

/// All lists of up to `calls` calls from `new`, pushes of one to `longest` events, and of one call fewer from every `after` of 1 or 2 events, that
/// the graph takes; those in which a run start was told true, with each of these asked again at the end.
pub fn small(feed: &mut Feed, calls: u32, longest: u32) {
    let each = |feed: &mut Feed, calls: &[Vec<u32>], told: &[u32]| {
        if !told.is_empty() {
            calls.iter().for_each(|call| feed.call(call.clone()));
            ask_again(feed, told);
        }
    };
    Taken { longest, takes: true, each }.all(feed, calls);
}

/// Random scripts, calls that are refused among them: after each call one event that was told true is asked again, at the end all.
pub fn random(feed: &mut Feed, count: u32, seed: u64) {
    let mut r = Random(seed ^ 0x5354415254);
    for nth in 0..count {
        begin(feed, &mut r, nth % 16 == 0);
        let mut told: Vec<u32> = vec![];
        for _ in 0..20 + r.below(100) {
            let call = changing(feed.graph(), &mut r, [2, 3, 6, 40][nth as usize % 4]);
            feed.call(call.clone());
            if feed.last_line() == "start 0 1" && !told.contains(&call[1]) {
                told.push(call[1]);
            }
            if !told.is_empty() {
                let at = r.pick(&told);
                ask_again(feed, &[at]);
            }
        }
        ask_again(feed, &told);
    }
}

/// With the tables full: 512 runs, 2,048 entries. A run start at another event is refused then, and one told true before is not.
pub fn full(feed: &mut Feed) {
    let fills: [(Vec<Vec<u32>>, u32, Vec<Vec<u32>>, u32, &str); 2] = [
        (vec![push(&[], 3), push(&[], 1)], 1, vec![push(&[], 1); 509], 2, "start 6 0"),
        ([vec![push(&[], 503)], vec![push(&upto(500), 1); 3]].concat(), 501, vec![push(&upto(47), 1)], 502, "start 7 0"),
    ];
    for (before, at, between, other, refused) in fills {
        feed.call(new());
        for call in before {
            feed.call(call);
        }
        feed.call(vec![3, at]);
        assert_eq!(feed.last_line(), "start 0 1");
        for call in between {
            feed.call(call);
            assert!(feed.last_line().starts_with("push 0 "));
        }
        feed.call(vec![3, other]);
        assert_eq!(feed.last_line(), refused);
        ask_again(feed, &[at]);
    }
}
