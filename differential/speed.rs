//! Times ours against the Rust: full replay, and the pushes that make the graph, on graphs of several shapes. Then archive points (02, F-6) and
//! wanted parents (F-3), of which the Rust has none.
//!
//! speed PROGRAM [ROUNDS]   PROGRAM: the speed program
//!
//! A round takes the Rust first and ours after it. The Rust runs in this process; the speed program is started with N turns and
//! with 2N, and the difference is that of N turns without starting, reading and building. All times are processor time, so
//! that other work on the machine matters less. Printed are, of each shape, the medians of all rounds, and of their ratios. What the speed program
//! prints is held to the Rust, and of archive points and wanted parents to 01's plain model.

#[allow(dead_code)]
mod model;

use std::hint::black_box;
use std::io::{Read, Write};
use std::process::{exit, Command, Stdio};
use strider_graph::{walk, CausalGraph, HistoryRange, WalkStep};

type Pushes = Vec<(Vec<u32>, u32)>;

struct Random(u64);

impl Random {
    fn below(&mut self, bound: u32) -> u32 {
        self.0 = self.0.wrapping_add(0x9E3779B97F4A7C15);
        let mut z = self.0;
        z = (z ^ (z >> 30)).wrapping_mul(0xBF58476D1CE4E5B9);
        z = (z ^ (z >> 27)).wrapping_mul(0x94D049BB133111EB);
        (((z ^ (z >> 31)) >> 32) % bound.max(1) as u64) as u32
    }
}

fn sorted(mut list: Vec<u32>) -> Vec<u32> {
    list.sort();
    list.dedup();
    list
}

/// `authors` that write in turn, five events a push, each after its own last push or, one time in `forks`, the one before; each
/// time in `every` it takes in another's events, up to the middle of a push some time ago.
fn authors(r: &mut Random, authors: u32, pushes: u32, every: u32, forks: u32) -> Pushes {
    (0..pushes)
        .map(|nth| {
            let own = nth.checked_sub(authors * (1 + (r.below(forks) == 0) as u32)).map(|before| 5 * before + 4);
            let back = 1 + r.below(authors - 1) + authors * r.below(5);
            let other = nth.checked_sub(back).filter(|_| nth / authors % every == every - 1).map(|before| 5 * before + 2);
            (sorted(own.into_iter().chain(other).collect()), 5)
        })
        .collect()
}

/// The shapes: a name and the pushes from `new`, each its parents and its length.
fn shapes() -> Vec<(&'static str, Pushes)> {
    let mut r = Random(1);
    let mut all: Vec<(&'static str, Pushes)> = vec![];

    all.push(("512 roots", (0..512).map(|_| (vec![], 2)).collect()));

    // 256 roots, then eight of them as the parents of each further run.
    let mut pushes: Pushes = (0..256).map(|_| (vec![], 2)).collect();
    pushes.extend((0..256).map(|_| ((0..8).map(|part| 2 * (32 * part + r.below(32)) + 1).collect(), 2)));
    all.push(("2,048 entries", pushes));

    // Four that write in turn, now and then take up an earlier push, and every third time take in what another had written.
    all.push(("four branches", authors(&mut r, 4, 390, 3, 4)));

    // A trunk of 512 events, and a fork from each second event of it, which splits it there.
    let mut pushes: Pushes = vec![(vec![], 512)];
    pushes.extend((0..255).map(|nth| (vec![2 * nth + 1], 2)));
    all.push(("forks on a trunk", pushes));

    // One or two parents among the last ends.
    let mut pushes: Pushes = vec![(vec![], 2)];
    for nth in 1..512u32 {
        let list = sorted((0..1 + r.below(2)).map(|_| 2 * (nth - 1 - r.below(nth.min(12))) + 1).collect());
        let list = if list == [2 * nth - 1] { vec![2 * nth.saturating_sub(2) + 1] } else { list };
        pushes.push((list, 2));
    }
    all.push(("random", pushes));

    // Two of the kind.
    all.push(("two authors", authors(&mut r, 2, 170, 4, 9)));

    // Two runs beside one another, then one that takes in both.
    let mut pushes: Pushes = vec![(vec![], 1)];
    let mut last = 0;
    for _ in 0..170 {
        pushes.push((vec![last], 1));
        pushes.push((vec![last], 1));
        pushes.push((vec![last + 1, last + 2], 1));
        last += 3;
    }
    all.push(("170 ranges", pushes));

    // A push that names every event before it: each is a run, and all are one Linear range.
    all.push(("linear", vec![(vec![], 511), ((0..511).collect(), 1)]));

    all.push(("one run", (0..512).map(|nth| (if nth == 0 { vec![] } else { vec![nth - 1] }, 1)).collect()));
    all
}

/// Shapes with many archive points and all the entries that there can be: each run's parents are the last events of runs before it.
fn many_points() -> Vec<(&'static str, Pushes)> {
    let on = |first: u32, end: u32| (first..end).map(|run| 2 * run + 1).collect();
    // The four runs before each, five for the last ten; the two pairs before each pair, and one more for the last twelve runs.
    let chain = (0..512u32).map(|run| (on(run.saturating_sub(if run < 502 { 4 } else { 5 }), run), 2)).collect();
    let pairs = (0..512u32).map(|run| (on((run / 2 * 2).saturating_sub(if run < 500 { 4 } else { 5 }), run / 2 * 2), 2)).collect();
    vec![("chain, 2,048 entries", chain), ("pairs, 2,048 entries", pairs)]
}

/// What is marked in a shape: its name, the pushes, what the mark is, and its ranges.
fn marks() -> Vec<(&'static str, Pushes, &'static str, Vec<u32>)> {
    let all: Vec<(&'static str, Pushes)> = shapes().into_iter().chain(many_points()).collect();
    let of = |name: &'static str, mark: &'static str, ranges: Vec<u32>| {
        let (_, pushes) = all.iter().find(|shape| shape.0 == name).expect("a shape");
        (name, pushes.clone(), mark, ranges)
    };
    // So many ranges of one length, a step from one first event to the next.
    let apart = |first: u32, count: u32, length: u32, step: u32| (0..count).flat_map(move |nth| [first + step * nth, first + step * nth + length]);
    let long: Pushes = vec![(vec![], 16000)];
    vec![
        of("linear", "all", vec![0, 512]),
        of("linear", "the first half", vec![0, 256]),
        of("chain, 2,048 entries", "all", vec![0, 1024]),
        of("chain, 2,048 entries", "the first half", vec![0, 512]),
        of("2,048 entries", "all", vec![0, 1024]),
        of("2,048 entries", "roots, and each second run on them", [0, 514].into_iter().chain(apart(516, 127, 2, 4)).collect()),
        of("forks on a trunk", "all", vec![0, 1022]),
        of("forks on a trunk", "the trunk", vec![0, 512]),
        of("512 roots", "all", vec![0, 1024]),
        of("512 roots", "each second run", apart(0, 256, 2, 4).collect()),
        of("512 roots", "each run's first event", apart(0, 512, 1, 2).collect()),
        of("512 roots", "each run's last event", apart(1, 512, 1, 2).collect()),
        of("one run", "all", vec![0, 512]),
        ("one run of 16,000", long.clone(), "each second event of 2,000", apart(0, 1000, 1, 2).collect()),
        ("one run of 16,000", long, "each second event", apart(0, 8000, 1, 2).collect()),
    ]
}

fn build(pushes: &Pushes) -> CausalGraph {
    let mut graph = CausalGraph::new();
    for (parents, len) in pushes {
        graph.push(parents, *len);
    }
    graph
}

/// The steps of a full replay, as ours writes them.
fn replay(graph: &CausalGraph, steps: &mut Vec<u32>) {
    steps.clear();
    for range in graph.split_at_critical_versions() {
        match range {
            HistoryRange::Linear(range) => {
                steps.extend([3, range.start, range.end]);
                range.for_each(|run| steps.extend([2, run, run + 1]));
            }
            HistoryRange::Concurrent(range) => {
                steps.extend([3, range.start, range.end]);
                walk(graph.runs(), &range, 0, 0, |step| match step {
                    WalkStep::Retreat(runs) => steps.extend([0, runs.start, runs.end]),
                    WalkStep::Advance(runs) => steps.extend([1, runs.start, runs.end]),
                    WalkStep::Apply(run) => steps.extend([2, run, run + 1]),
                });
            }
        }
    }
}

#[repr(C)]
struct Time {
    seconds: i64,
    part: i64,
}

extern "C" {
    fn clock_gettime(clock: i32, time: *mut Time) -> i32;
    fn waitid(kind: i32, id: u32, info: *mut [u64; 16], options: i32) -> i32;
}

/// The processor time of this process, in µs.
fn own_time() -> f64 {
    let mut time = Time { seconds: 0, part: 0 };
    unsafe { clock_gettime(2, &mut time) };
    time.seconds as f64 * 1e6 + time.part as f64 / 1e3
}

/// The processor time of a child, in µs: waits for its end and looks before it is gone.
fn time_of(child: u32) -> f64 {
    // P_PID; WEXITED and WNOWAIT.
    unsafe { waitid(1, child, &mut [0; 16], 0x0100_0004) };
    let text = std::fs::read_to_string(format!("/proc/{child}/schedstat")).expect("/proc/PID/schedstat");
    text.split(' ').next().unwrap().parse::<f64>().unwrap() / 1e3
}

fn per_turn(turns: u32, mut work: impl FnMut()) -> f64 {
    let begin = own_time();
    (0..turns).for_each(|_| work());
    (own_time() - begin) / turns as f64
}

/// Runs the speed program: its processor time in µs, and what it printed.
fn run(program: &str, turns: u32, what: u32, pushes: &Pushes, ranges: &[u32]) -> (f64, String) {
    let mut words = vec![turns, what, pushes.len() as u32];
    for (parents, len) in pushes {
        words.extend([*len, parents.len() as u32]);
        words.extend(parents);
    }
    words.extend([0, ranges.len() as u32]);
    words.extend(ranges);
    assert!(words.len() <= 16384, "{} words", words.len());
    let mut child = Command::new(program).stdin(Stdio::piped()).stdout(Stdio::piped()).spawn().unwrap_or_else(|error| {
        println!("{program} does not start: {error}");
        exit(2)
    });
    let bytes: Vec<u8> = words.iter().flat_map(|word| word.to_le_bytes()).collect();
    child.stdin.take().unwrap().write_all(&bytes).expect("the speed program's input");
    let mut said = String::new();
    child.stdout.take().unwrap().read_to_string(&mut said).expect("what the speed program writes");
    let time = time_of(child.id());
    child.wait().unwrap();
    (time, said.trim().to_string())
}

fn median(mut list: Vec<f64>) -> f64 {
    list.sort_by(|a, b| a.total_cmp(b));
    list[list.len() / 2]
}

/// What the speed program does, on which pushes and with which ranges, and what it must print.
struct Ours<'a> {
    program: &'a str,
    what: u32,
    pushes: &'a Pushes,
    ranges: &'a [u32],
    expected: String,
}

impl Ours<'_> {
    /// The µs of so many turns.
    fn time(&self, turns: u32) -> f64 {
        let (once, said) = run(self.program, turns, self.what, self.pushes, self.ranges);
        let (twice, _) = run(self.program, 2 * turns, self.what, self.pushes, self.ranges);
        if said != self.expected {
            println!("the speed program says {said}, not {}", self.expected);
            exit(1);
        }
        twice - once
    }

    /// As many turns as take some 30 ms.
    fn turns(&self) -> u32 {
        let mut turns = 2;
        while self.time(turns) < 20_000.0 {
            turns *= 2;
        }
        turns
    }
}

/// The medians of the Rust's µs, of ours, and of the ratios.
fn side_by_side(rounds: u32, ours: Ours, mut work: impl FnMut()) -> (f64, f64, f64) {
    let (mut of_rust, of_ours) = (2, ours.turns());
    while per_turn(of_rust, &mut work) * (of_rust as f64) < 20_000.0 {
        of_rust *= 2;
    }
    let times: Vec<(f64, f64)> = (0..rounds).map(|_| (per_turn(of_rust, &mut work), ours.time(of_ours) / of_ours as f64)).collect();
    let of = |value: fn(&(f64, f64)) -> f64| median(times.iter().map(value).collect());
    (of(|both| both.0), of(|both| both.1), of(|both| both.1 / both.0))
}

fn number(value: f64) -> String {
    if value < 1.0 {
        format!("{value:.2}")
    } else if value < 100.0 {
        format!("{value:.1}")
    } else {
        format!("{value:.0}")
    }
}

fn main() {
    let args: Vec<String> = std::env::args().skip(1).collect();
    let Some(program) = args.first() else {
        println!("speed PROGRAM [ROUNDS]");
        exit(2)
    };
    let rounds: u32 = args.get(1).map_or(9, |text| text.parse().expect("a number of rounds"));
    let shapes = shapes();
    println!("| Full replay of | runs | entries | steps | moved | Rust, µs | ours, µs | ratio |\n|---|---|---|---|---|---|---|---|");
    for (name, pushes) in &shapes {
        let graph = build(pushes);
        let runs = graph.runs();
        let entries: usize = (0..runs.len()).map(|run| runs.parents(run).len()).sum();
        let mut steps = vec![];
        replay(&graph, &mut steps);
        let moved: u64 = steps.chunks(3).filter(|step| step[0] < 2).map(|step| (runs.start(step[2]) - runs.start(step[1])) as u64).sum();
        let count = steps.len() / 3;
        let ours = Ours { program, what: 1, pushes, ranges: &[], expected: format!("{count} {moved} 0") };
        let (rust, ours, ratio) = side_by_side(rounds, ours, || replay(black_box(&graph), black_box(&mut steps)));
        println!("| {name} | {} | {entries} | {count} | {moved} | {} | {} | {ratio:.2} |", runs.len(), number(rust), number(ours));
    }
    println!("\n| Pushes of | pushes | runs | Rust, µs | ours, µs | ratio | ours, µs a push |\n|---|---|---|---|---|---|---|");
    for (name, pushes) in &shapes {
        let ours = Ours { program, what: 2, pushes, ranges: &[], expected: format!("{} 0 0", pushes.len()) };
        let (rust, ours, ratio) = side_by_side(rounds, ours, || drop(black_box(build(black_box(pushes)))));
        println!("| {name} | {} | {} | {} | {} | {ratio:.2} | {:.1} |", pushes.len(), build(pushes).runs().len(), number(rust), number(ours), ours / pushes.len() as f64);
    }
    let of_model = |pushes: &Pushes| {
        let mut graph = model::Graph::new();
        for (parents, len) in pushes {
            graph.push(parents, *len).expect("a push that is taken");
        }
        graph
    };
    let alone = |ours: Ours| {
        let turns = ours.turns();
        number(median((0..rounds).map(|_| ours.time(turns) / turns as f64).collect()))
    };
    println!("\n| Archive points of | runs | entries | points | ours, µs |\n|---|---|---|---|---|");
    for (name, pushes) in shapes.iter().chain(&many_points()) {
        let graph = of_model(pushes);
        let points = graph.archive_points().len();
        let time = alone(Ours { program, what: 3, pushes, ranges: &[], expected: format!("{points} 0 0") });
        println!("| {name} | {} | {} | {points} | {time} |", graph.runs(), graph.entries());
    }
    println!("\n| Wanted parents in | runs | entries | the mark | ranges | parents | ours, µs |\n|---|---|---|---|---|---|---|");
    for (name, pushes, mark, ranges) in &marks() {
        let graph = of_model(pushes);
        let (expected, parents) = match graph.wanted_parents(ranges) {
            Ok(list) => (format!("{} 0 0", list.len()), list.len().to_string()),
            Err(refusal) => ("0 0 1".to_string(), format!("refused {refusal}")),
        };
        let time = alone(Ours { program, what: 4, pushes, ranges, expected });
        println!("| {name} | {} | {} | {mark} | {} | {parents} | {time} |", graph.runs(), graph.entries(), ranges.len() / 2);
    }
}
