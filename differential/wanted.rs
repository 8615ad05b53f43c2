//! 02, F-3, for `compare`: the parents that give a wanted version. Every mark of all small graphs, every short list of words, marks that a list gives and
//! those with an event more or less, on random graphs, at the limits and on records by hand. The Rust has none: they are the model's
//! (`wanted_parents`). Where calls made the graph, the answer is pushed, and the log of the calls must tell the mark as what the new event has seen.

use crate::model::Graph;
use crate::points::{largest, layers};
use crate::record::Record;
use crate::records::{any_graph, any_parents, by_hand, records as named_records};
use crate::scripts::{after, ask, begin, c1, changing, event, new, push, wanted, Random, Taken, LAST};
use crate::Feed;

/// The pushes that were taken, each its parents, its first event and its end; and the first held event.
struct Log {
    first: u32,
    pushes: Vec<(Vec<u32>, u32, u32)>,
}

impl Log {
    /// Of a graph's own runs, for records that no calls made.
    fn of(graph: &Graph) -> Self {
        let parents = |run: usize| graph.parents[run].iter().map(|&parent| graph.starts[parent as usize + 1] - 1).collect();
        let pushes = (0..graph.runs()).map(|run| (parents(run), graph.starts[run], graph.starts[run + 1])).collect();
        Log { first: graph.first_held(), pushes }
    }

    /// Of these calls: the first makes a graph, and all are taken.
    fn of_calls(calls: &[Vec<u32>]) -> Self {
        let mut log = Log { first: if calls[0][0] == 1 { calls[0][1] } else { 0 }, pushes: vec![] };
        calls.iter().filter(|call| call[0] == 2).for_each(|call| log.push(&call[3..], call[1]));
        log
    }

    fn len(&self) -> u32 {
        self.pushes.last().map_or(self.first, |push| push.2)
    }

    fn push(&mut self, parents: &[u32], len: u32) {
        self.pushes.push((parents.to_vec(), self.len(), self.len() + len));
    }

    /// Notes a call if it is a push and its line says that it was taken.
    fn heard(&mut self, call: &[u32], line: &str) {
        if call[0] == 2 && line.starts_with("push 0 ") {
            self.push(&call[3..], call[1]);
        }
    }

    /// What an event with these parents has seen of the held ones, as ranges: push by push, of each its first events up to an end.
    fn seen(&self, parents: &[u32]) -> Vec<u32> {
        let mut ends: Vec<u32> = self.pushes.iter().map(|push| push.1).collect();
        let see = |ends: &mut [u32], event: u32| {
            if event >= self.first {
                let nth = self.pushes.partition_point(|push| push.1 <= event) - 1;
                ends[nth] = ends[nth].max(event + 1);
            }
        };
        parents.iter().for_each(|&parent| see(&mut ends, parent));
        for (nth, (parents, start, _)) in self.pushes.iter().enumerate().rev() {
            if ends[nth] > *start {
                parents.iter().for_each(|&parent| see(&mut ends, parent));
            }
        }
        let mut ranges: Vec<u32> = vec![];
        for (nth, (_, start, _)) in self.pushes.iter().enumerate().filter(|(nth, push)| ends[*nth] > push.1) {
            match ranges.last_mut() {
                Some(end) if end == start => *end = ends[nth],
                _ => ranges.extend([*start, ends[nth]]),
            }
        }
        ranges
    }

    /// The same, event by event, from parent to parent.
    fn seen_by_events(&self, parents: &[u32]) -> Vec<u32> {
        let (mut seen, mut todo) = (vec![false; (self.len() - self.first) as usize], parents.to_vec());
        while let Some(event) = todo.pop() {
            if event >= self.first && !std::mem::replace(&mut seen[(event - self.first) as usize], true) {
                let (parents, start, _) = &self.pushes[self.pushes.partition_point(|push| push.1 <= event) - 1];
                if event == *start { todo.extend(parents) } else { todo.push(event - 1) }
            }
        }
        as_ranges(self.first, self.len(), |event| seen[(event - self.first) as usize])
    }
}

/// The events from `first` to `end` that are marked, as ranges: none touches another.
fn as_ranges(first: u32, end: u32, marked: impl Fn(u32) -> bool) -> Vec<u32> {
    let mut ranges: Vec<u32> = vec![];
    for event in (first..end).filter(|&event| marked(event)) {
        match ranges.last_mut() {
            Some(end) if *end == event => *end += 1,
            _ => ranges.extend([event, event + 1]),
        }
    }
    ranges
}

/// The ranges with one event more, or, if they have it, without it.
fn turned(ranges: &[u32], event: u32) -> Vec<u32> {
    let mut list: Vec<u32> = ranges.to_vec();
    for word in [event, event + 1] {
        match list.binary_search(&word) {
            Ok(place) => drop(list.remove(place)),
            Err(place) => list.insert(place, word),
        }
    }
    list
}

/// Asks a mark in this room; the parents if there are some to tell.
fn ask_mark(feed: &mut Feed, ranges: &[u32], room: u32) -> Option<Vec<u32>> {
    feed.call(wanted(ranges, room));
    let line = feed.last_line();
    let told = line.strip_prefix("wanted 0 ").map(|told| told.split_whitespace().skip(2).map(|word| word.parse().unwrap()).collect::<Vec<u32>>());
    let none = line.starts_with("wanted 17 ");
    feed.noted("wanted parents: marks of held events", (told.is_some() || none) as u64);
    feed.noted("wanted parents: marks in graphs of over 100 runs", ((told.is_some() || none) && feed.graph().runs() > 100) as u64);
    feed.noted("wanted parents: marks that no list gives", none as u64);
    if let Some(told) = &told {
        feed.noted("wanted parents: marks of three ranges or more that a list gives", (ranges.len() > 5) as u64);
        feed.noted("wanted parents: lists of two or more", (told.len() > 1) as u64);
    }
    told
}

/// The same in a room that is enough, and then in some that are too short and in just enough.
fn ask_in_rooms(feed: &mut Feed, ranges: &[u32]) -> Option<Vec<u32>> {
    let told = ask_mark(feed, ranges, 513)?;
    let count = told.len() as u32;
    let mut rooms = vec![0, count / 2, count.saturating_sub(1), count, count + 1];
    rooms.dedup();
    rooms.into_iter().for_each(|room| feed.call(wanted(ranges, room)));
    Some(told)
}

/// All marks of a graph of few events, each as ranges.
fn all_marks(graph: &Graph) -> Vec<Vec<u32>> {
    let (first, len) = (graph.first_held(), graph.len());
    (0..1u32 << (len - first)).map(|bits| as_ranges(first, len, |event| bits >> (event - first) & 1 == 1)).collect()
}

/// Every mark, and where there are parents to tell, once more in a room that is too short.
pub fn every_mark(feed: &mut Feed, odd: u32) {
    for (nth, ranges) in all_marks(feed.graph()).iter().enumerate() {
        let count = ask_mark(feed, ranges, 9).map_or(0, |told| told.len() as u32);
        if count > 0 {
            feed.call(wanted(ranges, (odd + nth as u32) % count));
        }
    }
}

/// Pushes what was told of a mark, on the graph that the log tells. Panics where the new event has seen other events. Whether the push was taken.
fn push_told(feed: &mut Feed, log: &mut Log, ranges: &[u32], told: &[u32]) -> bool {
    let seen = log.seen(told);
    assert_eq!(seen, ranges, "what an event on {told:?} has seen, for the mark {ranges:?}, after the pushes {:?}", log.pushes);
    if log.len() - log.first <= 64 {
        assert_eq!(log.seen_by_events(told), seen, "the same by events, after the pushes {:?}", log.pushes);
    }
    let call = push(told, 1 + told.len() as u32 % 2);
    feed.call(call.clone());
    let taken = feed.last_line().starts_with("push 0 ");
    log.heard(&call, feed.last_line());
    feed.noted("wanted parents: pushed, the new event has seen the mark", taken as u64);
    feed.noted("wanted parents: pushed, and refused for want of numbers or places", !taken as u64);
    taken
}

/// The cases of `Changes` (crates/model/specs/Changes.antt, F3 to f3_broken), as calls, with their lines. Panics where the model tells another.
pub fn said(feed: &mut Feed) {
    let of_c1 = [vec![new()], c1()].concat();
    let forked = vec![new(), push(&[], 5), push(&[1], 2)];
    let later = vec![after(3, &[2]), push(&[2], 2), push(&[3], 1)];
    let farthest = vec![after(LAST - 5, &[]), push(&[], 5)];
    let falling = vec![by_hand(&[2, 1], &[&[]], &[0], &[2]).call()];
    type Asked = (&'static [u32], u32, &'static str);
    let cases: [(Vec<Vec<u32>>, &[Asked]); 5] = [
        (of_c1, &[
            (&[0, 3], 3, "wanted 0 2 : 1 2"),
            (&[0, 1, 2, 3], 1, "wanted 0 1 : 2"),
            (&[0, 5], 2, "wanted 0 2 : 3 4"),
            (&[], 1, "wanted 0 0 :"),
            (&[1, 3], 2, "wanted 17 0 :"),
            (&[0, 1, 1, 2], 1, "wanted 3 0 :"),
            (&[9, 10, 3, 4], 1, "wanted 3 0 :"),
            (&[2, 2], 1, "wanted 3 0 :"),
            (&[0, 3, 4], 1, "wanted 3 0 :"),
            (&[3, 4, 9, 10], 1, "wanted 4 0 :"),
            (&[0, 3], 1, "wanted 11 0 :"),
            (&[1, 3], 0, "wanted 17 0 :"),
        ]),
        (forked, &[(&[0, 3, 5, 6], 2, "wanted 0 2 : 2 5"), (&[1, 2], 1, "wanted 17 0 :"), (&[0, 1, 5, 6], 2, "wanted 17 0 :")]),
        (later, &[(&[2, 4], 1, "wanted 4 0 :"), (&[3, 4, 5, 6], 2, "wanted 0 1 : 5")]),
        (farthest, &[(&[LAST - 5, LAST], 1, "wanted 0 1 : 4294967294")]),
        (falling, &[(&[2, 2], 1, "wanted 1 0 :")]),
    ];
    for (calls, asked) in cases {
        calls.iter().for_each(|call| feed.call(call.clone()));
        for (ranges, room, line) in asked {
            feed.call(wanted(ranges, *room));
            assert_eq!(feed.last_line(), *line, "{ranges:?}");
        }
    }
    // What C1's first case tells, pushed: event 5, and then its own version.
    [vec![new()], c1(), vec![push(&[1, 2], 1)]].concat().into_iter().for_each(|call| feed.call(call));
    feed.call(wanted(&[0, 3, 5, 6], 1));
    assert_eq!(feed.last_line(), "wanted 0 1 : 5");
}

/// After all lists of up to `calls` calls from `new`, pushes of one to `longest` events and run starts, and of one call fewer from every `after` of 1 or 2
/// events, that the graph takes: every mark in every room from 0 to one more than enough; and every answer pushed, each on the graph as it was.
pub fn small(feed: &mut Feed, calls: u32, longest: u32) {
    said(feed);
    let each = |feed: &mut Feed, calls: &[Vec<u32>], _: &[u32]| {
        calls.iter().for_each(|call| feed.call(call.clone()));
        let mut answered = vec![];
        for ranges in all_marks(feed.graph()) {
            if let Some(told) = ask_mark(feed, &ranges, 9) {
                (0..=told.len() as u32 + 1).for_each(|room| feed.call(wanted(&ranges, room)));
                answered.push((ranges, told));
            }
        }
        for (ranges, told) in answered {
            calls.iter().for_each(|call| feed.call(call.clone()));
            push_told(feed, &mut Log::of_calls(calls), &ranges, &told);
            feed.call(vec![13]);
        }
    };
    Taken { longest, takes: false, each }.all(feed, calls);
}

/// All lists of up to `longest` words from `low` to `high`, whatever they mark, in a room that is enough and in none.
fn every_word_list(feed: &mut Feed, longest: usize, low: u32, high: u32) {
    let mut lists: Vec<Vec<u32>> = vec![vec![]];
    while let Some(list) = lists.pop() {
        feed.call(wanted(&list, 9));
        feed.call(wanted(&list, 0));
        if list.len() < longest {
            lists.extend((low..=high).map(|word| [&list[..], &[word]].concat()));
        }
    }
}

/// Faulty ranges, and events that are not held: all lists of up to four words after all lists of up to `calls` calls as above, pushes of 1 or 2 events;
/// longer lists on a few small graphs, near the last numbers and on a broken one; and as many words as the trace program takes.
pub fn words(feed: &mut Feed, calls: u32) {
    let each = |feed: &mut Feed, calls: &[Vec<u32>], _: &[u32]| {
        calls.iter().for_each(|call| feed.call(call.clone()));
        let len = feed.graph().len();
        every_word_list(feed, 4, 0, len + 1);
    };
    Taken { longest: 2, takes: false, each }.all(feed, calls);
    let made = |calls: &[Vec<u32>]| [vec![new()], calls.to_vec()].concat();
    for (calls, longest, low, high) in [
        (made(&c1()), 5, 0, 6),
        (made(&[push(&[], 5), push(&[1], 2)]), 4, 0, 8),
        (made(&[push(&[], 1), push(&[], 1), push(&[0], 1)]), 6, 0, 4),
        (vec![after(3, &[2]), push(&[2], 2), push(&[3], 1)], 4, 1, 7),
        (vec![after(LAST - 3, &[]), push(&[], 2), push(&[], 1)], 6, LAST - 4, LAST),
        (vec![by_hand(&[2, 1], &[&[]], &[0], &[2]).call()], 4, 0, 3),
    ] {
        calls.into_iter().for_each(|call| feed.call(call));
        every_word_list(feed, longest, low, high);
    }

    // Ranges of one event, every second one of a run.
    let (first, count) = (5, 32768);
    let apart: Vec<u32> = (0..2 * count).map(|nth| first + nth).collect();
    let with = |place: usize, word: u32| {
        let mut list = apart.clone();
        list[place] = word;
        list
    };
    let last = apart.len() - 1;
    for calls in [vec![after(first, &[]), push(&[], 3 * count)], vec![after(first, &[]), push(&[], 2), push(&[], 3 * count)]] {
        calls.into_iter().for_each(|call| feed.call(call));
        for list in [
            &apart,
            &apart[..last],
            &apart[1..],
            &apart[1..last],
            &with(0, first - 1),
            &with(0, first + 1),
            &with(last, 4 * count),
            &with(last, LAST),
            &with(last, apart[last] - 1),
            &with(last - 1, apart[last]),
            &with(last / 2, 0),
            &with(last / 2, 0)[..last],
        ] {
            feed.call(wanted(list, 0));
            feed.call(wanted(list, 2));
        }
    }
}

/// Some held events, in no order, many of them by the ends of runs.
fn some_events(r: &mut Random, graph: &Graph) -> Vec<u32> {
    let count = [0, 1, 1, 2, 2, 3, 4, 6, graph.runs() as u32 / 2, 2 * graph.runs() as u32][r.below(10) as usize];
    (0..count)
        .map(|_| if r.one_in(3) { r.pick(&graph.starts).wrapping_sub(1) } else { event(r, graph) })
        .filter(|&event| graph.first_held() <= event && event < graph.len())
        .collect()
}

/// An event by which a mark may be turned: at the ends of its ranges, or any.
fn near(r: &mut Random, graph: &Graph, ranges: &[u32]) -> Option<u32> {
    let found = if ranges.is_empty() || r.one_in(3) { event(r, graph) } else { r.pick(ranges).wrapping_sub(r.below(2)) };
    Some(found).filter(|&event| graph.first_held() <= event && event < graph.len())
}

/// Marks that a list gives, the same with one event more or less, with two, and any ranges.
fn ask_marks(feed: &mut Feed, r: &mut Random, log: &Log, count: u32) {
    for _ in 0..count {
        let graph = feed.graph().clone();
        let ranges = log.seen(&some_events(r, &graph));
        let told = ask_in_rooms(feed, &ranges);
        assert!(told.is_some(), "a mark that a list gives: {ranges:?}, {}", feed.last_line());
        let mut other = ranges.clone();
        for _ in 0..2 {
            if let Some(event) = near(r, &graph, &other) {
                other = turned(&other, event);
                ask_in_rooms(feed, &other);
            }
        }
        // Any words, and words that rise.
        let mut any: Vec<u32> = (0..r.below(9)).map(|_| event(r, &graph)).collect();
        ask_mark(feed, &any, 9);
        any.sort();
        any.dedup();
        ask_mark(feed, &any, 9);
    }
}

/// The same, and what was told of a mark is pushed.
fn ask_and_push(feed: &mut Feed, r: &mut Random, log: &mut Log, count: u32) {
    for _ in 0..count {
        ask_marks(feed, r, log, 1);
        let ranges = log.seen(&some_events(r, &feed.graph().clone()));
        let told = ask_mark(feed, &ranges, 600).expect("a mark that a list gives");
        if push_told(feed, log, &ranges, &told) {
            feed.call(vec![13]);
            // The version of the new event alone.
            let last = log.len() - 1;
            let own = log.seen(&[last]);
            assert_eq!(ask_in_rooms(feed, &own), Some(vec![last]));
        }
    }
}

/// A push for each of these runs, as long as they are taken, now and then with a parent that is not held, and run starts between them. Asked at the
/// end; or after each.
fn pushed(feed: &mut Feed, r: &mut Random, runs: &[Vec<u32>], longest: u32, each: bool) -> Log {
    let first = feed.graph().first_held();
    let mut log = Log { first, pushes: vec![] };
    for parents in runs {
        let mut list: Vec<u32> = parents.iter().map(|&run| log.pushes[run as usize].2 - 1).collect();
        if first > 0 && r.one_in(4) {
            list.insert(0, r.below(first));
        }
        let call = push(&list, 1 + r.below(longest));
        feed.call(call.clone());
        if !feed.last_line().starts_with("push 0 ") {
            break;
        }
        log.heard(&call, feed.last_line());
        if each && r.one_in(6) {
            let at = event(r, feed.graph());
            feed.call(vec![3, at]);
        }
        if each {
            ask_marks(feed, r, &log, 1);
        }
    }
    log
}

/// `count` random graphs. One half in layers: most of up to 20 runs, some of up to 100, one in fifty of up to 512. The other by any calls, refused ones
/// among them, and with anything asked between them; one in eight of these near the last numbers.
pub fn random(feed: &mut Feed, count: u32, seed: u64) {
    for nth in 0..count {
        let mut r = Random((seed << 32) + (13 << 28) + nth as u64);
        if nth % 2 == 0 {
            let runs = match nth / 2 % 50 {
                49 => [512, 512, 300 + r.below(213)][r.below(3) as usize],
                45..49 => 21 + r.below(80),
                _ => 2 + r.below(19),
            };
            begin(feed, &mut r, false);
            let longest = r.pick(&[1, 2, 3, 1 << 22]);
            let runs = layers(&mut r, runs);
            let mut log = pushed(feed, &mut r, &runs, longest, runs.len() <= 20);
            ask_and_push(feed, &mut r, &mut log, 4);
        } else {
            begin(feed, &mut r, nth % 16 == 1);
            let mut log = Log { first: feed.graph().first_held(), pushes: vec![] };
            let longest = [1, 2, 3, 6, 40, 1000, 1 << 31][r.below(7) as usize];
            for _ in 0..5 + r.below(40) {
                let call = changing(feed.graph(), &mut r, longest);
                feed.call(call.clone());
                log.heard(&call, feed.last_line());
                if r.one_in(4) {
                    ask(feed, &mut r);
                }
                if r.one_in(8) {
                    ask_and_push(feed, &mut r, &mut log, 1);
                }
            }
            ask_and_push(feed, &mut r, &mut log, 2);
        }
    }
}

/// Pushes on up to seven of the last events, which split runs, as long as they are taken.
fn tangled(feed: &mut Feed, r: &mut Random, longest: u32) -> Log {
    let mut log = Log { first: feed.graph().first_held(), pushes: vec![] };
    loop {
        let back = log.len() - log.first;
        let mut list: Vec<u32> = (0..if back == 0 { 0 } else { r.below(8) }).map(|_| log.len() - 1 - r.below(back.min(5 * longest))).collect();
        list.sort();
        list.dedup();
        let call = push(&list, 1 + r.below(longest));
        feed.call(call.clone());
        if !feed.last_line().starts_with("push 0 ") {
            return log;
        }
        log.heard(&call, feed.last_line());
    }
}

/// The largest graphs, made by pushes, from `new` and near the last numbers, and by hand; and 512 ranges, to which there are 512 parents.
pub fn at_limits(feed: &mut Feed, seed: u64) {
    let mut r = Random((seed << 32) + (15 << 28));
    for runs in largest() {
        for start in [new(), after(LAST - 2000, &[7])] {
            feed.call(start);
            let log = pushed(feed, &mut r, &runs, 3, false);
            ask_marks(feed, &mut r, &log, 12);
        }
        let graph = any_graph(&mut r, runs.len() as u32, |_, run| runs[run as usize].clone());
        asked_by_hand(feed, &mut r, &graph, 12);
    }
    for longest in [1, 2, 6, 6, 1 << 21, 1 << 21] {
        begin(feed, &mut r, false);
        let log = tangled(feed, &mut r, longest);
        ask_marks(feed, &mut r, &log, 24);
    }
    // 512 roots of four events: the first one, two or three of each, or of some; and then one range that does not begin where its run does.
    for first in [0, LAST - 2048] {
        feed.call(after(first, &[]));
        (0..512).for_each(|_| feed.call(push(&[], 4)));
        for one_in in [1, 1, 2, 20] {
            let some: Vec<u32> = (0..512).filter(|_| r.one_in(one_in)).collect();
            let ranges: Vec<u32> = some.iter().flat_map(|run| [first + 4 * run, first + 4 * run + 1 + r.below(3)]).collect();
            let told = ask_in_rooms(feed, &ranges);
            assert_eq!(told.map(|told| told.len()), Some(some.len()));
            let mut inside = ranges.clone();
            let place = 2 * r.below(some.len() as u32) as usize;
            (inside[place], inside[place + 1]) = (inside[place] + 1, inside[place] + 2);
            assert_eq!(ask_in_rooms(feed, &inside), None);
        }
    }
}

fn asked_by_hand(feed: &mut Feed, r: &mut Random, graph: &Graph, count: u32) {
    let record = Record::of(graph);
    assert!(record.faults().is_empty(), "a record by hand is broken: {:?}", record.faults());
    feed.call(record.call());
    ask_marks(feed, r, &Log::of(graph), count);
}

/// Broken records, one for each clause and more, and near misses; `count` records by hand that are not broken, most of up to 9 runs, one in forty of up
/// to 512, with any parents or in layers, the small ones asked every mark.
pub fn records(feed: &mut Feed, count: u32, seed: u64) {
    for (_, clause, record) in named_records() {
        feed.call(record.call());
        for ranges in [&[][..], &[2, 5], &[2, 6], &[3, 6], &[0, 3], &[0, 3, 4, 5], &[5, 2], &[2], &[0, LAST], &[600, 1112]] {
            feed.call(wanted(ranges, 1));
            assert!(feed.last_line().starts_with("wanted 1 ") == clause.is_some());
        }
    }
    for nth in 0..count {
        let mut r = Random((seed << 32) + (17 << 28) + nth as u64);
        let runs = if nth % 40 == 39 { r.below(513) } else { r.below(10) };
        let lists = if r.one_in(2) { (0..runs).map(|run| any_parents(&mut r, run)).collect() } else { layers(&mut r, runs) };
        let graph = any_graph(&mut r, lists.len() as u32, |_, run| lists[run as usize].clone());
        asked_by_hand(feed, &mut r, &graph, 3);
        if graph.len() - graph.first_held() <= 7 {
            every_mark(feed, nth);
        }
    }
}
