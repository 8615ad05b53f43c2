//! Shows each difference between the Rust and document 01, and between the Rust and the Eg-walker
//! paper, by running the Rust (release build) beside document 01's plain model. Then searches small
//! graphs, all of them, and larger random ones for a difference on input that 01 accepts.
//! Ends with status 1 if there is one besides `is_empty`, or if a listed difference is not there.
//!
//! An argument gives the number of calls per script in the search (4 if there is none).

mod calls;
#[allow(dead_code)]
mod model;

use calls::{model_answer, rust_answer, Call, Call::*};
use std::process::exit;
use strider_graph::CausalGraph;

const LAST: u32 = u32::MAX;

fn upto(end: u32) -> Vec<u32> {
    (0..end).collect()
}

fn push(parents: &[u32], len: u32) -> Call {
    Push(parents.to_vec(), len)
}

/// Makes the calls on both sides and prints each answer: one line where they agree, two where not.
fn show(title: &str, expect_difference: bool, calls: &[Call]) -> bool {
    println!("{title}");
    let (mut rust, mut plain) = (CausalGraph::new(), model::Graph::new());
    let mut differs = false;
    for call in calls {
        let (ours, theirs) = (model_answer(&mut plain, call), rust_answer(&mut rust, call));
        if ours == theirs {
            println!("    {call}: {ours}");
        } else {
            differs = true;
            println!("  * {call}\n        Rust: {theirs}\n        01:   {ours}");
        }
    }
    println!();
    if differs != expect_difference {
        println!("UNEXPECTED: {}\n", if differs { "they differ" } else { "they agree" });
    }
    differs == expect_difference
}

fn refused_input() -> bool {
    println!("== Input that 01 refuses ==\n");
    let cases: Vec<(&str, Vec<Call>)> = vec![
        ("A parent at `len` (4): taken as an event of the last run", vec![New, push(&[], 1), push(&[1], 1), Graph]),
        ("A parent far above `len` (4)", vec![New, push(&[], 1), push(&[7], 1), Graph]),
        ("A parent above `len` joins the known ones (4): a run named twice", vec![New, push(&[], 1), push(&[0, 1], 1), Graph]),
        ("The parent 4,294,967,295 (4): the last run is split at 0", vec![New, push(&[], 1), push(&[LAST], 1), Graph]),
        ("A parent where no runs are held (4): panic, and a stray entry stays in the graph", vec![New, push(&[0], 1), push(&[], 1), Parents(0)]),
        ("The same after `after` (4)", vec![After(1, vec![0]), push(&[1], 1), push(&[], 1), Parents(0)]),
        ("Length 0, fresh (2): an empty run, and a frontier event that is not there", vec![New, push(&[], 0), Graph]),
        ("Length 0, a new run (2): an empty run; the frontier names an event twice", vec![New, push(&[], 1), push(&[], 0), Graph]),
        ("Length 0, growing (2): taken, the last run counts as changed", vec![New, push(&[], 1), Take, push(&[0], 0), Take]),
        ("Parents falling (3): entries falling, and a mark fewer than in rising order", vec![New, push(&[], 1), push(&[], 1), push(&[1, 0], 1), Graph]),
        ("A parent repeated (3): its run is named twice", vec![New, push(&[], 1), push(&[0, 0], 1), Graph]),
        ("Event numbers past 4,294,967,295 (5), a new run", vec![New, push(&[], LAST), push(&[], 1), Graph]),
        ("Event numbers past 4,294,967,295 (5), growing", vec![New, push(&[], LAST), push(&[LAST - 1], 1), Graph]),
        ("Over 512 runs (6)", vec![New, push(&[], 512), push(&upto(512), 1), Graph]),
        ("Over 512 runs by a run start (6)", vec![New, push(&[], 512), push(&upto(510), 1), StartRunAt(511), Graph]),
        ("Over 2,048 entries (7)", vec![New, push(&[], 500), push(&upto(500), 1), push(&upto(500), 1), push(&upto(500), 1), push(&upto(500), 1), Graph]),
        (
            "Over 2,048 entries by a run start (7)",
            vec![New, push(&[], 502), push(&upto(500), 1), push(&upto(500), 1), push(&upto(500), 1), push(&upto(48), 1), StartRunAt(501), Graph],
        ),
        ("Over 512 frontier events (8)", vec![After(512, upto(512)), push(&[], 1), Graph]),
        ("`after` with over 512 frontier events (8)", vec![After(513, upto(513)), Graph]),
        ("`after`, frontier falling (3)", vec![After(2, vec![1, 0]), push(&[0, 1], 1), Graph]),
        ("`after`, frontier repeated (3)", vec![After(1, vec![0, 0]), Graph]),
        ("`after`, a frontier event at `events` (4)", vec![After(0, vec![0]), push(&[], 1), Graph]),
        ("`start` past the run count (9)", vec![New, push(&[], 1), Start(2)]),
        ("`events` at the run count (9)", vec![New, push(&[], 1), Events(1)]),
        ("`parents` at the run count (9)", vec![New, push(&[], 1), Parents(1)]),
        ("`containing` past the end (not yet known, 02 F-11): the last run", vec![New, push(&[], 1), Containing(1)]),
        ("`containing` before the first held event (before the graph, 02 F-11)", vec![After(1, vec![0]), push(&[0], 1), Containing(0)]),
        ("`containing` with no runs (not yet known, 02 F-11)", vec![New, Containing(0)]),
        ("The cut from an unmarked run (10): begins at the next mark", vec![New, push(&[], 1), push(&[], 1), push(&[0, 1], 1), Cut(1)]),
        ("The cut from an unmarked run with no mark after it (10)", vec![New, push(&[], 1), push(&[], 1), Cut(1)]),
        ("The cut from the run count (9)", vec![New, push(&[], 1), Cut(1)]),
        ("A walk past the run count (9)", vec![New, Walk(0, 1, 0, 0)]),
        ("A walk of an empty range past the run count (9)", vec![New, Walk(1, 1, 0, 0)]),
        ("A reversed range (9): no steps", vec![New, push(&[], 1), Walk(1, 0, 0, 0)]),
        ("A reversed range past the run count (9)", vec![New, push(&[], 1), Walk(2, 0, 0, 0)]),
        ("`known` above the range's length (12)", vec![New, push(&[], 1), Walk(0, 1, 2, 0)]),
    ];
    cases.iter().fold(true, |good, (title, calls)| show(title, true, calls) & good)
}

fn accepted_input() -> bool {
    println!("== Input that 01 accepts ==\n");
    let good = show("`is_empty` after `after`: the Rust asks whether `len` is 0, 01 whether there are no runs", true, &[After(1, vec![]), IsEmpty]);
    println!("-- Looked at, and the same --\n");
    let one_two_two = [New, push(&[], 1), push(&[0], 1), push(&[0], 1), push(&[1, 2], 1), push(&[1, 2], 1)];
    let walks = |walks: &[Call]| [&one_two_two[..], walks].concat();
    let cases: Vec<(&str, Vec<Call>)> = vec![
        ("Two parents in one run: two splits", vec![New, push(&[], 4), push(&[0, 2], 1), Graph, Take]),
        ("All events of one run as parents", vec![New, push(&[], 3), push(&[0, 1, 2], 1), Graph, Take]),
        ("Parents before the first held event: no entry, no split", vec![After(3, vec![1, 2]), push(&[0, 2], 2), push(&[1, 3], 1), Graph]),
        ("A parent before the first held event beside the last event: no growth", vec![After(1, vec![0]), push(&[0], 1), push(&[0, 1], 1), Graph]),
        ("The last event not held: no growth", vec![After(1, vec![0]), push(&[0], 1), Graph]),
        ("Parents equal to the frontier with one event not held", vec![After(1, vec![0]), push(&[], 1), push(&[0, 1], 1), Graph]),
        ("Parents short of the frontier by one event not held", vec![After(1, vec![0]), push(&[], 1), push(&[], 1), push(&[1, 2], 1), Graph]),
        ("`start_run_at` outside", vec![After(1, vec![]), StartRunAt(1), push(&[], 2), StartRunAt(0), StartRunAt(1), StartRunAt(3), StartRunAt(LAST)]),
        ("The cut with no runs", vec![New, Cut(7)]),
        ("`first` above the range's length", walks(&[Walk(1, 5, 0, 0), Walk(1, 5, 0, 9)])),
        ("`first` below `known`", walks(&[Walk(1, 5, 2, 2), Walk(1, 5, 2, 0)])),
        ("A range that does not begin at a mark", walks(&[Walk(2, 5, 0, 0), Walk(2, 5, 1, 2)])),
        ("Empty ranges", walks(&[Walk(0, 0, 0, 0), Walk(2, 2, 0, 3), Walk(5, 5, 0, 0)])),
        ("Event numbers up to the last one", vec![New, push(&[], LAST - 2), push(&[], 1), push(&[0, LAST - 2], 1), Graph, Walk(0, 4, 0, 0)]),
    ];
    cases.iter().fold(good, |good, (title, calls)| show(title, false, calls) & good)
}

/// Each held event's ancestors among the held ones, from the accepted pushes alone: the paper's "happened before".
fn ancestors(calls: &[Call]) -> Vec<Vec<u32>> {
    let (mut of, mut first_held): (Vec<Vec<u32>>, u32) = (vec![], 0);
    for call in calls {
        match call {
            After(events, _) => first_held = *events,
            Push(parents, len) => {
                for nth in 0..*len {
                    let own = if nth == 0 { parents.clone() } else { vec![first_held + of.len() as u32 - 1] };
                    let mut set: Vec<u32> = vec![];
                    for parent in own.into_iter().filter(|&parent| parent >= first_held) {
                        set.push(parent);
                        set.extend(&of[(parent - first_held) as usize]);
                    }
                    set.sort();
                    set.dedup();
                    of.push(set);
                }
            }
            _ => {}
        }
    }
    of
}

/// The event numbers in whose place the paper has a critical version: all held events before it are
/// ancestors of all events from it on.
fn critical(calls: &[Call], first_held: u32) -> Vec<u32> {
    let of = ancestors(calls);
    let seen_by_all = |at: usize| of[at..].iter().all(|set| (0..at).all(|before| set.contains(&(first_held + before as u32))));
    (0..of.len()).filter(|&at| seen_by_all(at)).map(|at| first_held + at as u32).collect()
}

fn against_the_paper() -> bool {
    println!("== The Rust and the paper (01 follows the Rust in each) ==\n");
    let mut good = true;
    let mut compare = |title: &str, calls: &[Call], differ: bool| {
        good &= show(title, false, &[calls, &[Graph, Cut(0)]].concat());
        let mut rust = CausalGraph::new();
        for call in calls {
            rust_answer(&mut rust, call);
        }
        let marked: Vec<u32> = calls::rust_marks(&rust).iter().map(|&run| rust.runs().start(run)).collect();
        let of_paper = critical(calls, rust.first_held_event());
        println!("    starts of marked runs: {marked:?}\n    critical in the paper's sense, among the held events, before: {of_paper:?}\n");
        good &= differ == (marked != of_paper) && marked.iter().all(|start| of_paper.contains(start));
    };
    let two_roots = [New, push(&[], 1), push(&[], 1)];
    let with = |more: &[Call]| [&two_roots[..], more].concat();
    compare("Both roots seen by run 2: critical and marked", &with(&[push(&[0, 1], 1)]), false);
    compare("Both seen by run 3 too: critical still, no longer marked; run 3's seen length, a lower bound, is 1", &with(&[push(&[0, 1], 1), push(&[0, 1], 1)]), true);
    compare("Critical partway along a run: no run starts there, so no mark", &[New, push(&[], 2)], true);
    compare("A run start there is told false and makes none", &[New, push(&[], 2), StartRunAt(1)], true);
    compare("Parents that are not concurrent (0 is an ancestor of 1): taken", &[New, push(&[], 1), push(&[0], 1), push(&[0, 1], 1)], false);
    compare("Parents that stand for the frontier's version but are not its list: critical, not marked", &[New, push(&[], 1), push(&[], 2), push(&[0, 1, 2], 1)], true);
    compare("The same version by the frontier's list: marked", &[New, push(&[], 1), push(&[], 2), push(&[0, 2], 1)], false);
    compare("All held events seen, but the frontier has one more that is not held: critical, not marked", &[After(1, vec![0]), push(&[], 1), push(&[], 1), push(&[1, 2], 1)], true);
    compare("Events before the first held count as seen by all: in the paper 1, which names no parent, is concurrent with 0", &[After(1, vec![0]), push(&[], 1)], false);
    good
}

/// What was compared, and the scripts that differ.
#[derive(Default)]
struct Search {
    scripts: u64,
    answers: u64,
    is_empty: u64,
    short_of_paper: u64,
    wrong: Vec<String>,
}

impl Search {
    /// Makes one accepted script on both sides and then asks everything about the graph it leaves.
    fn script(&mut self, calls: &[Call], events_small: bool) {
        self.scripts += 1;
        let (mut rust, mut plain) = (CausalGraph::new(), model::Graph::new());
        let mut at_take: Option<Vec<String>> = None;
        for (i, call) in calls.iter().enumerate() {
            let taken = plain.changed;
            if !self.same(&mut rust, &mut plain, call, &calls[..i]) {
                return;
            }
            if let Take = call {
                let now = run_texts(&plain);
                if let Some(then) = &at_take {
                    let differing = (0..now.len()).find(|&run| then.get(run) != Some(&now[run])).unwrap_or(now.len());
                    if taken as usize > differing {
                        self.wrong.push(format!("a take above the lowest changed run: {}", script_text(calls)));
                    }
                }
                at_take = Some(now);
            }
        }
        let (runs, first, len) = (plain.runs() as u32, plain.first_held(), plain.len());
        let mut questions = vec![Graph, IsEmpty, Extends(vec![]), Start(runs)];
        for run in 0..runs {
            questions.extend([Start(run), Events(run), Parents(run)]);
            if plain.marked(run as usize) {
                questions.push(Cut(run));
            }
        }
        if events_small {
            for event in first..len {
                questions.extend([Containing(event), Extends(vec![event])]);
            }
            for from in 0..=runs {
                for to in from..=runs {
                    for known in 0..=to - from {
                        for first in 0..=to - from + 1 {
                            questions.push(Walk(from, to, known, first));
                        }
                    }
                }
            }
            let of_paper = critical(calls, first);
            let marked: Vec<u32> = plain.marks().iter().map(|&run| plain.starts[run as usize]).collect();
            if marked.iter().any(|start| !of_paper.contains(start)) {
                self.wrong.push(format!("marked and not critical: {}", script_text(calls)));
            }
            let starts = plain.starts[..runs as usize].iter().copied();
            if plain.archive_points() != starts.filter(|start| of_paper.contains(start)).collect::<Vec<_>>() {
                self.wrong.push(format!("archive points (02, F-6) are not the critical starts of runs: {}", script_text(calls)));
            }
            let childless: Vec<u32> = (first..len).filter(|event| !ancestors(calls).iter().flatten().any(|parent| parent == event)).collect();
            if !plain.frontier.ends_with(&childless) || plain.frontier.len() > childless.len() + first as usize {
                self.wrong.push(format!("the frontier is not the childless events: {}", script_text(calls)));
            }
            if plain.starts[..runs as usize].iter().any(|start| of_paper.contains(start) && !marked.contains(start)) {
                self.short_of_paper += 1;
            }
        } else {
            let cut = plain.cut(0).unwrap_or_default();
            questions.extend(cut.iter().map(|range| Walk(range[1], range[2], 0, 0)));
            let some = |n: u32, below: u32| n.wrapping_mul(2654435761) % (below + 1);
            let (from, to) = (some(len, runs).min(some(len + 1, runs)), some(len, runs).max(some(len + 1, runs)));
            questions.push(Walk(from, to, some(len + 2, to - from), some(len + 3, to - from)));
        }
        for question in &questions {
            self.same(&mut rust, &mut plain, question, calls);
        }
    }

    fn same(&mut self, rust: &mut CausalGraph, plain: &mut model::Graph, call: &Call, before: &[Call]) -> bool {
        self.answers += 1;
        let (ours, theirs) = (model_answer(plain, call), rust_answer(rust, call));
        if ours != theirs && matches!(call, IsEmpty) && plain.runs() == 0 && plain.first_held() > 0 {
            self.is_empty += 1;
        } else if ours != theirs {
            self.wrong.push(format!("{}; {call}: Rust {theirs}, 01 {ours}", script_text(before)));
            return false;
        }
        true
    }

    /// Every accepted script of up to `left` further calls: pushes of 1 or 2 events with any parents,
    /// run starts at any held event, takes. `len` and `first_held` are those of the graph so far.
    fn all(&mut self, calls: &mut Vec<Call>, first_held: u32, len: u32, left: u32) {
        self.script(calls, true);
        if left == 0 {
            return;
        }
        for parents in subsets(len) {
            for events in 1..=2 {
                calls.push(Push(parents.clone(), events));
                self.all(calls, first_held, len + events, left - 1);
                calls.pop();
            }
        }
        for at in first_held + 1..len {
            calls.push(StartRunAt(at));
            self.all(calls, first_held, len, left - 1);
            calls.pop();
        }
        if !matches!(calls.last(), Some(Take)) {
            calls.push(Take);
            self.all(calls, first_held, len, left - 1);
            calls.pop();
        }
    }

    fn random(&mut self, seed: u64) {
        let mut random = Random(seed.wrapping_mul(0x9E3779B97F4A7C15) | 1);
        let mut calls = vec![];
        let mut plain = model::Graph::new();
        let before = random.below(4);
        let fresh = if random.below(2) == 0 { New } else { After(before, upto(before).into_iter().filter(|_| random.below(2) == 0).collect()) };
        model_answer(&mut plain, &fresh);
        calls.push(fresh);
        let (count, roots, longest) = (random.below(180), random.below(100), [1, 3, 40, 1000000][random.below(4) as usize]);
        for _ in 0..count {
            let len = plain.len();
            let call = match random.below(100) {
                0..8 => StartRunAt(random.below(len + 2)),
                8..12 => Take,
                kind => {
                    let mut parents: Vec<u32> = match kind {
                        _ if random.below(100) < roots => vec![],
                        12..30 => plain.frontier.clone(),
                        30..70 => plain.frontier.iter().copied().filter(|_| random.below(3) == 0).collect(),
                        _ => (0..random.below(4)).filter(|_| len > 0).map(|_| random.below(len)).collect(),
                    };
                    parents.sort();
                    parents.dedup();
                    Push(parents, 1 + random.below(longest))
                }
            };
            if !model_answer(&mut plain, &call).starts_with("refused") {
                calls.push(call);
            }
        }
        self.script(&calls, false);
    }
}

struct Random(u64);

impl Random {
    /// A number below `bound`, 0 if that is 0.
    fn below(&mut self, bound: u32) -> u32 {
        self.0 ^= self.0 << 13;
        self.0 ^= self.0 >> 7;
        self.0 ^= self.0 << 17;
        ((self.0 >> 33) % bound.max(1) as u64) as u32
    }
}

/// Each run's events, parents and mark.
fn run_texts(graph: &model::Graph) -> Vec<String> {
    (0..graph.runs()).map(|run| format!("{:?} {:?} {}", &graph.starts[run..run + 2], graph.parents[run], graph.marked(run))).collect()
}

fn script_text(calls: &[Call]) -> String {
    calls.iter().map(|call| call.to_string()).collect::<Vec<_>>().join("; ")
}

/// The rising lists of numbers below `end`.
fn subsets(end: u32) -> Vec<Vec<u32>> {
    (0..1u32 << end).map(|bits| (0..end).filter(|&n| bits >> n & 1 == 1).collect()).collect()
}

fn main() {
    let calls: u32 = std::env::args().nth(1).map_or(4, |text| text.parse().expect("a number of calls"));
    std::panic::set_hook(Box::new(|_| {}));
    let mut good = refused_input() & accepted_input() & against_the_paper();

    println!("== Search on input that 01 accepts ==\n");
    let mut search = Search::default();
    search.all(&mut vec![New], 0, 0, calls);
    for events in 1..=2 {
        for frontier in subsets(events) {
            search.all(&mut vec![After(events, frontier)], events, events, calls - 1);
        }
    }
    println!("all scripts of up to {calls} calls from `new`, {} from `after`: {} scripts, {} answers", calls - 1, search.scripts, search.answers);
    println!("of these, with a run that is critical in the paper's sense and not marked: {} scripts", search.short_of_paper);
    let small = (search.scripts, search.answers);
    for seed in 1..=2000 {
        search.random(seed);
    }
    println!("random scripts of up to 180 calls: {} scripts, {} answers", search.scripts - small.0, search.answers - small.1);
    println!("differences in `is_empty` after `after`: {}; other differences: {}", search.is_empty, search.wrong.len());
    search.wrong.sort_by_key(|text| text.len());
    for text in search.wrong.iter().take(10) {
        println!("    {text}");
    }
    good &= search.wrong.is_empty() && search.is_empty > 0;
    println!("{}", if good { "as listed" } else { "NOT AS LISTED" });
    exit(if good { 0 } else { 1 });
}
