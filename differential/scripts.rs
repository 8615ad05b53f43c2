//! The scripts that `compare` makes: all small ones, random ones, graphs at the limits.
//! A call is a list of words, as the trace program reads them; `Feed` takes the calls one by one.

use crate::model::Graph;
use crate::record::{self, Record};
use crate::{answers, walks, wanted as marks, Feed};

/// Whether the trace program answers walks and full replays (operations 6 and 7) yet.
pub const WALKS: bool = true;
/// Whether it answers the step reader (operation 15) yet.
pub const READER: bool = true;

pub const LAST: u32 = u32::MAX;

pub fn new() -> Vec<u32> {
    vec![0]
}

fn counted(head: &[u32], list: &[u32]) -> Vec<u32> {
    [head, &[list.len() as u32], list].concat()
}

pub fn after(events: u32, frontier: &[u32]) -> Vec<u32> {
    counted(&[1, events], frontier)
}

pub fn push(parents: &[u32], len: u32) -> Vec<u32> {
    counted(&[2, len], parents)
}

pub fn extends(parents: &[u32]) -> Vec<u32> {
    counted(&[12], parents)
}

pub fn wanted(ranges: &[u32], room: u32) -> Vec<u32> {
    [&counted(&[20], ranges)[..], &[room]].concat()
}

pub fn upto(end: u32) -> Vec<u32> {
    (0..end).collect()
}

/// C1's pushes.
pub fn c1() -> Vec<Vec<u32>> {
    vec![push(&[], 1), push(&[0], 1), push(&[0], 1), push(&[1, 2], 1), push(&[1, 2], 1)]
}

/// The rising lists of numbers below `end`.
pub fn subsets(end: u32) -> Vec<Vec<u32>> {
    (0..1u32 << end).map(|bits| (0..end).filter(|&n| bits >> n & 1 == 1).collect()).collect()
}

/// Every rising list of the known events and one unknown, and the lists of two of these that are not rising.
fn lists(known: u32) -> Vec<Vec<u32>> {
    let mut all = subsets(known + 1);
    for a in 0..=known {
        all.extend((0..=a).map(|b| vec![a, b]));
    }
    all
}

fn taken(list: &[u32], known: u32) -> bool {
    list.windows(2).all(|pair| pair[0] < pair[1]) && list.iter().all(|&event| event < known)
}

/// All lists of up to `left` further calls, with what is asked after each. `len` is the graph's so far.
fn all_calls(feed: &mut Feed, calls: &mut Vec<Vec<u32>>, len: u32, left: u32, ask: fn(&mut Feed)) {
    for call in calls.iter() {
        feed.call(call.clone());
    }
    ask(feed);
    if left == 0 {
        return;
    }
    let mut go = |call: Vec<u32>, len: u32| {
        calls.push(call);
        all_calls(feed, calls, len, left - 1, ask);
        calls.pop();
    };
    for parents in lists(len) {
        for events in 0..=2 {
            go(push(&parents, events), if taken(&parents, len) { len + events } else { len });
        }
    }
    for at in 0..=len + 1 {
        go(vec![3, at], len);
    }
    go(vec![4], len);
}

/// All lists of `calls` calls from `new`, and of one call fewer from every `after` of up to 2 events.
fn all_lists(feed: &mut Feed, calls: u32, ask: fn(&mut Feed)) {
    all_calls(feed, &mut vec![new()], 0, calls, ask);
    for events in 0..=2 {
        for frontier in lists(events) {
            let len = if taken(&frontier, events) { events } else { 0 };
            all_calls(feed, &mut vec![after(events, &frontier)], len, calls - 1, ask);
        }
    }
}

/// The graph after each of them.
pub fn small(feed: &mut Feed, calls: u32) {
    all_lists(feed, calls, |feed| feed.call(vec![13]));
}

/// Where every event lies after each of them: those before the graph, the held ones, and some that are not yet known.
pub fn sides(feed: &mut Feed, calls: u32) {
    all_lists(feed, calls, |feed| {
        let len = feed.graph().len();
        (0..=len + 1).chain([LAST]).for_each(|event| feed.call(vec![11, event]));
    });
}

/// All lists of calls that a graph takes: pushes with any parents, run starts.
pub struct Taken {
    /// The events of the longest push.
    pub longest: u32,
    /// Whether takes are among the calls.
    pub takes: bool,
    /// What is done with each list, and with the events at which a run start was told true in it.
    pub each: fn(&mut Feed, &[Vec<u32>], &[u32]),
}

impl Taken {
    /// All lists of up to `left` further calls after `calls`, which left `graph`.
    fn lists(&self, feed: &mut Feed, calls: &mut Vec<Vec<u32>>, graph: &Graph, told: &[u32], left: u32) {
        (self.each)(feed, calls, told);
        if left == 0 {
            return;
        }
        let mut go = |call: Vec<u32>, graph: Graph, told: &[u32]| {
            calls.push(call);
            self.lists(feed, calls, &graph, told, left - 1);
            calls.pop();
        };
        for parents in subsets(graph.len()) {
            for events in 1..=self.longest {
                let mut next = graph.clone();
                next.push(&parents, events).expect("a push that is taken");
                go(push(&parents, events), next, told);
            }
        }
        for at in graph.first_held() + 1..graph.len() {
            let (mut next, mut told) = (graph.clone(), told.to_vec());
            if next.start_run_at(at) == Ok(true) && !told.contains(&at) {
                told.push(at);
            }
            go(vec![3, at], next, &told);
        }
        if self.takes {
            let mut next = graph.clone();
            next.take_changed_from();
            go(vec![4], next, told);
        }
    }

    /// All lists of up to `calls` calls from `new`, and of one call fewer from every `after` of 1 or 2 events.
    pub fn all(&self, feed: &mut Feed, calls: u32) {
        self.lists(feed, &mut vec![new()], &Graph::new(), &[], calls);
        for events in 1..=2 {
            for frontier in subsets(events) {
                let graph = Graph::after(events, &frontier).expect("a start that is taken");
                self.lists(feed, &mut vec![after(events, &frontier)], &graph, &[], calls - 1);
            }
        }
    }
}

/// Everything that can be asked of a graph of a few single events; `all`: with all its walks.
fn ask_all(feed: &mut Feed, odd: u32, all: bool) {
    let (runs, first, len) = (feed.graph().runs() as u32, feed.graph().first_held(), feed.graph().len());
    let points = feed.graph().archive_points().len() as u32;
    feed.call(vec![13]);
    for room in 0..=points + 1 {
        feed.call(vec![8, room]);
    }
    for run in 0..=runs + 1 {
        feed.call(vec![5, run, 3 * runs]);
        feed.call(vec![5, run, (odd + run) % (3 * runs + 1)]);
        feed.call(vec![9, run, runs]);
        feed.call(vec![9, run, (odd + run) % (runs + 1)]);
        feed.call(vec![10, run]);
    }
    for event in first.saturating_sub(1)..=len + 1 {
        feed.call(vec![11, event]);
        feed.call(extends(&[event]));
    }
    feed.call(extends(&[]));
    feed.call(extends(&[0, len.wrapping_sub(1)]));
    marks::every_mark(feed, odd);
    if WALKS {
        feed.call(vec![7, 64, 192]);
        feed.call(vec![7, odd % 30, odd % 40]);
        if all { walks::every_walk(feed) } else { walks::every_range(feed, odd) }
    }
}

/// A graph of single events: of each, `bits` has a bit for every earlier one that is its parent.
pub fn single_events(feed: &mut Feed, count: u32, bits: u32) {
    feed.call(new());
    let mut left = bits;
    for event in 0..count {
        feed.call(push(&subsets(event)[(left & ((1 << event) - 1)) as usize], 1));
        left >>= event;
    }
}

/// All graphs of up to `events` single events, each event's parents any of the earlier ones.
pub fn all_graphs(feed: &mut Feed, events: u32) {
    let mut odd = 0;
    for count in 0..=events {
        for bits in 0..1u32 << (count * count.saturating_sub(1) / 2) {
            single_events(feed, count, bits);
            ask_all(feed, odd, count <= 5);
            odd = (odd + 1) % 1009;
        }
    }
}

pub struct Random(pub u64);

impl Random {
    /// A number below `bound`, 0 if that is 0.
    pub fn below(&mut self, bound: u32) -> u32 {
        self.0 = self.0.wrapping_add(0x9E3779B97F4A7C15);
        let mut z = self.0;
        z = (z ^ (z >> 30)).wrapping_mul(0xBF58476D1CE4E5B9);
        z = (z ^ (z >> 27)).wrapping_mul(0x94D049BB133111EB);
        (((z ^ (z >> 31)) >> 32) % bound.max(1) as u64) as u32
    }

    pub fn one_in(&mut self, n: u32) -> bool {
        self.below(n) == 0
    }

    pub fn pick(&mut self, list: &[u32]) -> u32 {
        list[self.below(list.len() as u32) as usize]
    }

    fn some_of(&mut self, list: &[u32], one_in: u32) -> Vec<u32> {
        list.iter().copied().filter(|_| self.one_in(one_in)).collect()
    }
}

/// An event that matters: by the ends of a run, before the first held, or any.
pub fn event(r: &mut Random, graph: &Graph) -> u32 {
    let start = r.pick(&graph.starts);
    match r.below(6) {
        0 => start,
        1 => start.wrapping_sub(1),
        2 => start.saturating_add(1),
        3 => r.below(graph.first_held()),
        _ => graph.first_held().saturating_add(r.below(graph.len() - graph.first_held())),
    }
}

/// Parents for a push: the frontier or a part of it, the last event, any known events (also two in one run,
/// one an ancestor of the other, or before the first held); now and then unknown, unsorted or repeated.
fn parents(r: &mut Random, graph: &Graph) -> Vec<u32> {
    let len = graph.len();
    let mut list = match r.below(16) {
        0 | 1 => vec![],
        2 | 3 => graph.frontier.clone(),
        4 | 5 => r.some_of(&graph.frontier, 2),
        6 | 7 => r.some_of(&graph.frontier, 4),
        8 | 9 => vec![len.wrapping_sub(1)],
        10 => vec![event(r, graph)],
        11 => {
            let one = event(r, graph);
            vec![one, one.saturating_add(1 + r.below(4))]
        }
        12 => [r.some_of(&graph.frontier, 3), vec![event(r, graph)]].concat(),
        _ => (0..r.below(5)).map(|_| event(r, graph)).collect(),
    };
    list.sort();
    list.dedup();
    if !r.one_in(12) {
        list.retain(|&event| event < len);
    }
    match r.below(60) {
        0 => list.reverse(),
        1 if !list.is_empty() => list.insert(0, list[0]),
        2 => list.push(len.saturating_add(r.below(3))),
        3 => list.push(LAST),
        4 => {
            let at = r.below(list.len() as u32 + 1) as usize;
            list.insert(at, event(r, graph))
        }
        _ => {}
    }
    list
}

fn length(r: &mut Random, graph: &Graph, longest: u32) -> u32 {
    let left = LAST - graph.len();
    // Lengths that use up the numbers are rare: they leave little to do.
    match r.below(600) {
        0..15 => 0,
        15 => left,
        16..24 => left.saturating_add(1),
        24..30 => LAST,
        30 | 31 => left.saturating_sub(r.below(40)),
        32 | 33 => 1 << 31,
        _ if longest > 1000 => 1 + (r.below(longest) >> r.below(28)),
        _ => 1 + r.below(longest),
    }
}

/// A room for a list that needs `need` words.
fn room(r: &mut Random, need: u32) -> u32 {
    match r.below(10) {
        0 => r.below(4),
        1 => need.saturating_sub(1),
        2 => need,
        3 => need + 1,
        4 => r.below(need + 2),
        5 if r.one_in(20) => 65536,
        _ => 600 + r.below(3000),
    }
}

/// A call that changes the graph, or is to be refused.
pub fn changing(graph: &Graph, r: &mut Random, longest: u32) -> Vec<u32> {
    match r.below(20) {
        0..14 => {
            let len = length(r, graph, longest);
            push(&parents(r, graph), len)
        }
        14..18 => vec![3, if r.one_in(20) { LAST } else { event(r, graph) }],
        _ => vec![4],
    }
}

/// One such call, and the graph after it.
pub fn change(feed: &mut Feed, r: &mut Random, longest: u32) {
    let call = changing(feed.graph(), r, longest);
    feed.call(call);
    feed.call(vec![13]);
}

/// One call that asks.
pub fn ask(feed: &mut Feed, r: &mut Random) {
    let graph = feed.graph();
    let (runs, marks) = (graph.runs() as u32, graph.marks());
    let run = r.below(runs + 2);
    let any_run = if r.one_in(25) { LAST } else { run };
    let kinds = 10 + if WALKS { 4 } else { 0 } + if READER { 1 } else { 0 };
    let call = match r.below(kinds) {
        0 | 1 => {
            let from = if marks.is_empty() || r.one_in(4) { any_run } else { r.pick(&marks) };
            let need = graph.cut(from).map_or(3, |ranges| 3 * ranges.len() as u32);
            vec![5, from, room(r, need)]
        }
        2 => vec![8, room(r, graph.archive_points().len() as u32)],
        3 | 4 => vec![9, any_run, room(r, runs / 2)],
        5 | 6 => vec![10, any_run],
        7 => vec![11, if r.one_in(25) { LAST } else { event(r, graph) }],
        8 => extends(&parents(r, graph)),
        9 => vec![13],
        10 | 11 if WALKS => {
            let (a, b) = (r.below(runs + 1), r.below(runs + 1));
            let (from, to) = if r.one_in(20) { (a, any_run) } else { (a.min(b), a.max(b)) };
            // A range outside the graph may be of any width.
            let width = to.saturating_sub(from).min(600);
            let (rows, steps) = walks::rooms(r, width);
            vec![6, from, to, r.below(width + 2), r.below(width + 3), rows, steps]
        }
        12 | 13 if WALKS => {
            let (rows, steps) = walks::rooms(r, runs);
            vec![7, rows, steps]
        }
        _ => {
            let list: Vec<u32> = (0..r.below(20)).map(|nth| if nth % 3 == 0 && !r.one_in(12) { r.below(4) } else { r.below(9) }).collect();
            counted(&[15], &list)
        }
    };
    feed.call(call);
}

fn calls(feed: &mut Feed, r: &mut Random, count: u32, longest: u32) {
    for _ in 0..count {
        if r.below(5) < 3 { change(feed, r, longest) } else { ask(feed, r) }
    }
}

/// `new`, or an `after` with few or many events, now and then refused.
pub fn begin(feed: &mut Feed, r: &mut Random, near_the_end: bool) {
    if !near_the_end && r.one_in(2) {
        return feed.call(new());
    }
    let events = if near_the_end { LAST - r.below(300) } else { [r.below(6), r.below(40), r.below(LAST)][r.below(3) as usize] };
    let mut frontier: Vec<u32> = (0..r.below(5)).map(|_| r.below(events)).filter(|&event| event < events).collect();
    frontier.sort();
    frontier.dedup();
    match r.below(24) {
        0 => frontier.reverse(),
        1 => frontier.push(events),
        2 if !frontier.is_empty() => frontier.push(frontier[0]),
        3 if events > 0 => frontier = vec![events - 1],
        _ => {}
    }
    feed.call(after(events, &frontier));
}

/// A call that makes a graph or changes it, and the graph after it.
fn made(feed: &mut Feed, call: Vec<u32>) {
    feed.call(call);
    feed.call(vec![13]);
}

/// A script of 5 to 200 calls.
fn mixed(feed: &mut Feed, r: &mut Random) {
    let shape = r.below(8);
    begin(feed, r, shape == 7);
    feed.call(vec![13]);
    let count = 4 + r.below(196);
    let longest = [1, 2, 3, 6, 40, 1000, 1 << 31, 3][shape as usize];
    calls(feed, r, count, longest);
}

/// Graphs by their limits: 512 runs, 2,048 entries, 512 frontier events, and calls there.
fn at_limits(feed: &mut Feed, r: &mut Random, kind: u32) {
    let few = |r: &mut Random| r.below(12);
    match kind {
        // Runs, by splits.
        0 => {
            made(feed, new());
            made(feed, push(&[], 512 + r.below(40)));
            let named = upto(511 - few(r));
            made(feed, push(&named, 1 + r.below(9)));
        }
        // Entries, by pushes with hundreds of parents.
        1 => {
            made(feed, new());
            let named = upto(490 + few(r));
            made(feed, push(&[], 520));
            for _ in 0..3 {
                made(feed, push(&named, 1 + r.below(3)));
            }
            let left = 2048 - feed.graph().entries() as u32;
            made(feed, push(&upto(left.min(named.len() as u32) - few(r)), 1));
        }
        // Frontier, by events that are not held.
        2 => {
            let events = 513 + r.below(1000);
            made(feed, after(events, &upto(513 - few(r))));
        }
        // Runs and frontier, by roots.
        3 => {
            let held = r.below(30);
            made(feed, after(held, &upto(held)));
            for _ in 0..512 - few(r) {
                made(feed, push(&[], 1 + r.below(2)));
            }
        }
        // All three at once.
        4 => {
            made(feed, after(600, &upto(505 - few(r))));
            made(feed, push(&[], 520));
            let named: Vec<u32> = (600..1095 + few(r)).collect();
            for _ in 0..3 {
                made(feed, push(&named, 1));
            }
            let left = 2048 - feed.graph().entries();
            made(feed, push(&named[..left.min(named.len()) - r.below(12) as usize], 1));
            for _ in 0..few(r) {
                made(feed, push(&[], 1));
            }
        }
        // Runs and entries, by many small pushes.
        5 => {
            made(feed, new());
            made(feed, push(&[], 3));
            for _ in 0..700 {
                if feed.graph().runs() > 505 {
                    break;
                }
                let len = feed.graph().len();
                let mut list: Vec<u32> = (0..r.below(8)).map(|_| len - 1 - r.below(len.min(30))).collect();
                list.sort();
                list.dedup();
                made(feed, push(&list, 1 + r.below(3)));
            }
        }
        // A list longer than all limits.
        _ => {
            let events = 2000 + r.below(60000);
            made(feed, new());
            made(feed, push(&[], events));
            made(feed, push(&upto(events), 1));
            made(feed, push(&upto(events + 1), 1));
            made(feed, after(events, &upto(events)));
        }
    }
    for _ in 0..10 + r.below(30) {
        let graph = feed.graph();
        // The starts of runs that can be split.
        let inside: Vec<u32> = graph.starts.windows(2).filter(|run| run[1] - run[0] > 1).map(|run| run[0]).collect();
        match r.below(11) {
            // Splits.
            0..3 => {
                let mut list: Vec<u32> = if inside.is_empty() { vec![] } else { (0..1 + r.below(3)).map(|_| r.pick(&inside)).collect() };
                list.sort();
                list.dedup();
                made(feed, push(&list, 1 + r.below(3)));
            }
            // No split: ends of runs, one, a few or many.
            3..5 => {
                let ends: Vec<u32> = graph.starts[1..].iter().map(|&end| end - 1).collect();
                let one_in = [2, 50, 200][r.below(3) as usize];
                let list = if !ends.is_empty() && r.one_in(2) { vec![r.pick(&ends)] } else { r.some_of(&ends, one_in) };
                made(feed, push(&list, 1 + r.below(3)));
            }
            5 => {
                made(feed, push(&[], 1 + r.below(3)));
            }
            6 | 7 if !inside.is_empty() => {
                feed.call(vec![3, r.pick(&inside) + 1]);
                feed.call(vec![13]);
            }
            8 => ask(feed, r),
            _ => change(feed, r, 4),
        }
    }
    ask(feed, r);
}

/// `count` random scripts, one in forty of them at the limits.
pub fn random(feed: &mut Feed, count: u32, seed: u64) {
    for nth in 0..count {
        let mut r = Random((seed << 32) + nth as u64);
        if nth % 40 == 39 { at_limits(feed, &mut r, nth / 40 % 7) } else { mixed(feed, &mut r) }
    }
}

/// Scripts that end badly, as bytes: unknown operations, calls cut off, and what is no whole word.
pub fn bad_scripts() -> Vec<Vec<u8>> {
    let bytes = |calls: &[Vec<u32>]| -> Vec<u8> { calls.concat().iter().flat_map(|word| word.to_le_bytes()).collect() };
    let good = [push(&[], 3), push(&[], 2), push(&[2, 4], 2), vec![13]];
    let with = |call: &[u32]| bytes(&[&good[..], &[call.to_vec()]].concat());
    let mut all = vec![vec![], vec![1], vec![0, 0, 0], with(&[]), [with(&[]), vec![0]].concat(), [with(&[]), vec![1, 2, 3]].concat()];
    all.extend([&[16][..], &[17, 0], &[19], &[21], &[LAST], &[1], &[1, 3], &[1, 3, 2, 0], &[2], &[2, 1], &[2, 1, 3, 1, 2], &[3], &[5], &[5, 0], &[8], &[9, 0], &[10], &[11], &[12], &[12, 2, 1], &[14], &[14, 0, 0, 0]].map(with));
    all.extend([&[20][..], &[20, 0], &[20, 2], &[20, 2, 0], &[20, 2, 0, 1], &[20, LAST, 0, 1, 9]].map(with));
    let record = Record::of(&Graph::new()).call();
    all.push(with(&record[..record::WORDS - 1]));
    all.push(with(&record));
    all.push([with(&[12, 2, 1]), vec![7, 7]].concat());
    all.push(bytes(&[good.concat(), vec![16], vec![13]]));
    // Rooms and lists above the program's own, and as long as these.
    let (rows, steps) = (answers::ROW_ROOM, answers::STEP_ROOM);
    for room in [steps, steps + 1, LAST] {
        all.extend([&[5, 0, room][..], &[8, room], &[9, 0, room], &[20, 0, room], &[20, 2, 0, 3, room]].map(with));
    }
    for count in [answers::LIST_ROOM, answers::LIST_ROOM + 1] {
        all.extend([counted(&[1, LAST], &upto(count)), push(&upto(count), 1), extends(&upto(count)), wanted(&upto(count), 1)].iter().map(|call| with(call)));
    }
    all.push(with(&[2, 1, LAST, 0]));
    if WALKS {
        all.extend([&[6, 0, 1, 0, 0, 9][..], &[7, 9]].map(with));
        for (rows, steps) in [(rows, steps), (rows + 1, steps), (rows, steps + 1), (LAST, 0), (0, LAST)] {
            all.extend([&[6, 0, 2, 0, 0, rows, steps][..], &[7, rows, steps]].map(with));
        }
    }
    if READER {
        all.extend([&[15][..], &[15, 3, 0, 0]].map(with));
    }
    all
}

/// A few hundred calls of every kind, for the gate's own run.
pub fn sample(feed: &mut Feed) {
    let case = |feed: &mut Feed, calls: &[Vec<u32>]| {
        feed.call(new());
        for call in calls {
            feed.call(call.clone());
        }
        feed.call(vec![13]);
    };
    // C1's graph again, asked everything.
    case(feed, &c1());
    ask_all(feed, 5, false);
    marks::said(feed);
    if WALKS {
        walks::sample(feed);
    }
    for nth in 0..8 {
        let mut r = Random(nth);
        begin(feed, &mut r, nth == 7);
        calls(feed, &mut r, 24, [1, 2, 3, 6, 40, 1000, 1 << 31, 3][nth as usize]);
    }
    // Refusals 6, 7 and 8, as in docs/DIFFERENCES.md.
    case(feed, &[push(&[], 512), push(&upto(512), 1), push(&upto(510), 1), vec![3, 511], vec![9, 500, 9], vec![8, 600]]);
    feed.call(new());
    feed.call(push(&[], 502));
    for _ in 0..3 {
        feed.call(push(&upto(500), 1));
    }
    for call in [push(&upto(500), 1), push(&upto(48), 1), vec![3, 501], vec![5, 0, 9], vec![10, 502]] {
        feed.call(call);
    }
    feed.call(after(512, &upto(512)));
    feed.call(push(&[], 1));
    feed.call(push(&[0], 1));
    for refused in [after(513, &upto(513)), after(2, &[1, 0]), after(1, &[0, 0]), after(0, &[0])] {
        feed.call(refused);
        feed.call(vec![13]);
    }
    crate::records::by_clause(feed, false);
}
