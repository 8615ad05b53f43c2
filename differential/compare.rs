//! Holds the trace program against the unchanged Rust: makes scripts, gives them to both, and compares every line.
//! Where two lines differ it finds a smallest script, prints it with both lines, and ends with status 1.
//!
//! compare TRACE [RANDOM [SEED [PART]]]   TRACE: the program; RANDOM: how many random scripts; SEED: a number;
//!                                        PART: words of a part's title, to run that alone
//! compare --sample DIR                   writes a script (DIR/stdin) and the Rust's lines (DIR/stdout), and runs nothing

mod answers;
#[allow(dead_code)]
mod calls;
mod cases;
mod failing;
#[allow(dead_code)]
mod model;
mod points;
mod record;
mod records;
mod scripts;
mod starts;
mod walks;
mod wanted;

use answers::{answer_script, Oracle};
use std::collections::BTreeMap;
use std::io::{BufRead, BufReader, Read, Write};
use std::panic::{catch_unwind, AssertUnwindSafe};
use std::process::{exit, Child, ChildStdin, ChildStdout, Command, Stdio};
use std::sync::mpsc::{channel, Receiver, Sender};
use std::thread::JoinHandle;
use std::time::{Duration, Instant};

const RANDOM: u32 = 10000;
/// After this many calls the next script goes to a new run of the trace program.
const STREAM: usize = 400000;

/// Lines by operation and what is returned.
type Counts = BTreeMap<(u32, String), u64>;
/// Walks, replays, concurrency lists, run starts and graphs that have something of note; how many.
type Notes = BTreeMap<&'static str, u64>;

/// By operation; there are none from 16 to 19.
const NAMES: [&str; 21] = ["new", "after", "push", "start", "take", "cut", "walk", "replay", "archive", "concurrent", "run", "event", "extends", "graph", "raw", "reader", "", "", "", "", "wanted"];

fn bytes(calls: &[Vec<u32>]) -> Vec<u8> {
    calls.iter().flatten().flat_map(|word| word.to_le_bytes()).collect()
}

/// The Rust's line; where the Rust and 01's model part, or the Rust panics, what was said then.
fn answer(oracle: &mut Oracle, call: &[u32]) -> String {
    catch_unwind(AssertUnwindSafe(|| oracle.answer(call)))
        .unwrap_or_else(|panic| panic.downcast_ref::<String>().cloned().or(panic.downcast_ref::<&str>().map(|text| text.to_string())).unwrap_or_default())
}

fn start(trace: &str) -> Child {
    Command::new(trace).stdin(Stdio::piped()).stdout(Stdio::piped()).spawn().unwrap_or_else(|error| {
        println!("{trace} does not start: {error}");
        exit(2)
    })
}

/// The trace program's lines for a whole script; if it fails, how.
fn trace_lines(trace: &str, script: Vec<u8>) -> Result<Vec<String>, String> {
    let mut child = start(trace);
    let mut input = child.stdin.take().unwrap();
    let writer = std::thread::spawn(move || input.write_all(&script).ok());
    let mut text = vec![];
    child.stdout.take().unwrap().read_to_end(&mut text).expect("what the trace program writes");
    writer.join().unwrap();
    let status = child.wait().unwrap();
    if status.success() { Ok(String::from_utf8_lossy(&text).lines().map(String::from).collect()) } else { Err(format!("the program ended with {status}")) }
}

/// What a run of the trace program gave.
struct Outcome {
    calls: Vec<Vec<u32>>,
    counts: Counts,
    notes: Notes,
    /// The place of the first call whose lines differ.
    differs: Option<usize>,
}

/// What is of note in a line of a walk, a replay or a concurrency list.
fn note(notes: &mut Notes, call: &[u32], line: &str) {
    if ![6, 7, 9, 11].contains(&call[0]) {
        return;
    }
    let words: Vec<u64> = line.split(' ').skip(1).take(3).filter_map(|word| word.parse().ok()).collect();
    let mut more = |name: &'static str, times: u64| *notes.entry(name).or_default() += times;
    if call[0] == 9 {
        more("concurrency lists of two runs or more, in order", (words[1] > 1) as u64);
        return;
    }
    let (refusal, count, moved) = (words[0], words[1], words[2]);
    if call[0] == 11 {
        more("events in a run", (refusal == 0 && count == 0) as u64);
        more("events before the graph", (count == 1) as u64);
        more("events not yet known", (count == 2) as u64);
        return;
    }
    more("steps compared", count);
    if call[0] == 7 {
        more("replays with `moved` above 4,294,967,295", (moved > u32::MAX as u64) as u64);
        return;
    }
    more("walks with `moved` above 4,294,967,295", (moved > u32::MAX as u64) as u64);
    if [0, 11, 13].contains(&refusal) {
        let width = call[2] - call[1];
        more("walks with `known` the range's length", (call[3] == width) as u64);
        more("walks with `first` above the range's length", (call[4] > width) as u64);
        more("walks of over 100 runs", (width > 100) as u64);
        more("walks of 512 runs", (width == 512) as u64);
    }
}

/// Reads the trace program's lines and compares each as it comes.
fn compare(lines: ChildStdout, expected: Receiver<Vec<(Vec<u32>, String)>>) -> Outcome {
    let mut lines = BufReader::with_capacity(1 << 16, lines);
    let mut outcome = Outcome { calls: vec![], counts: Counts::new(), notes: Notes::new(), differs: None };
    let mut line = String::new();
    let mut expected = expected.iter().flatten();
    while let Some((call, expected_line)) = expected.next() {
        line.clear();
        let read = lines.read_line(&mut line);
        if read.is_err() || !line.ends_with('\n') {
            // The program ended, maybe with lines not written yet: any call that it was given may be the cause.
            outcome.calls.push(call);
            outcome.calls.extend(expected.map(|(call, _)| call));
            outcome.differs = Some(outcome.calls.len() - 1);
            return outcome;
        }
        if line[..line.len() - 1] != *expected_line {
            outcome.differs = Some(outcome.calls.len());
            outcome.calls.push(call);
            return outcome;
        }
        let returned = if [0, 14, 15].contains(&call[0]) { "0" } else { expected_line.split(' ').nth(1).unwrap_or("0") };
        match outcome.counts.get_mut(&(call[0], returned.to_string())) {
            Some(count) => *count += 1,
            None => drop(outcome.counts.insert((call[0], returned.to_string()), 1)),
        }
        note(&mut outcome.notes, &call, &expected_line);
        outcome.calls.push(call);
    }
    line.clear();
    if lines.read_line(&mut line).is_ok_and(|read| read > 0) {
        outcome.differs = Some(outcome.calls.len() - 1);
    }
    outcome
}

struct Stream {
    child: Child,
    input: ChildStdin,
    expected: Sender<Vec<(Vec<u32>, String)>>,
    reader: JoinHandle<Outcome>,
}

/// Takes the scripts call by call, answers each from the Rust, and gives it to the trace program.
pub struct Feed {
    oracle: Oracle,
    trace: String,
    stream: Option<Stream>,
    /// Calls and lines that are not given to the trace program yet; all of them if there is none.
    waiting: Vec<(Vec<u32>, String)>,
    /// The Rust's line for the last call.
    last: String,
    sent: usize,
    scripts: u64,
    counts: Counts,
    notes: Notes,
}

impl Feed {
    fn new(trace: &str) -> Self {
        Feed { oracle: Oracle::new(), trace: trace.into(), stream: None, waiting: vec![], last: String::new(), sent: 0, scripts: 0, counts: Counts::new(), notes: Notes::new() }
    }

    /// The current graph by 01's model; of a broken record, the graph before it.
    pub fn graph(&self) -> &model::Graph {
        &self.oracle.model
    }

    pub fn call(&mut self, call: Vec<u32>) {
        if [0, 1, 14].contains(&call[0]) {
            self.scripts += 1;
            if self.sent >= STREAM {
                self.finish();
            }
        }
        let line = answer(&mut self.oracle, &call);
        self.last.clone_from(&line);
        self.waiting.push((call, line));
        self.sent += 1;
        if self.waiting.len() >= 1000 && !self.trace.is_empty() {
            self.flush();
        }
    }

    /// The Rust's line for the last call.
    pub fn last_line(&self) -> &str {
        &self.last
    }

    /// What is of note, so many times more.
    pub fn noted(&mut self, name: &'static str, times: u64) {
        *self.notes.entry(name).or_default() += times;
    }

    fn flush(&mut self) {
        let trace = &self.trace;
        let stream = self.stream.get_or_insert_with(|| {
            let mut child = start(trace);
            let (input, output) = (child.stdin.take().unwrap(), child.stdout.take().unwrap());
            let (expected, receiver) = channel();
            Stream { child, input, expected, reader: std::thread::spawn(move || compare(output, receiver)) }
        });
        let waiting = std::mem::take(&mut self.waiting);
        let words: Vec<u8> = waiting.iter().flat_map(|(call, _)| call).flat_map(|word| word.to_le_bytes()).collect();
        // The lines go first: the reader must never wait for a line whose call is already written.
        if stream.expected.send(waiting).is_err() || stream.input.write_all(&words).is_err() {
            self.finish();
        }
    }

    /// Ends the current run of the trace program. Ends this program if there was a difference.
    fn finish(&mut self) {
        if !self.waiting.is_empty() {
            self.flush();
        }
        let Some(Stream { mut child, input, expected, reader }) = self.stream.take() else { return };
        drop((input, expected));
        let outcome = reader.join().unwrap();
        let status = child.wait().unwrap();
        if let Some(at) = outcome.differs {
            report(&self.trace, &outcome.calls[..=at]);
        }
        if !status.success() {
            println!("the trace program ended with {status}");
            exit(1);
        }
        for (key, count) in outcome.counts {
            *self.counts.entry(key).or_default() += count;
        }
        for (name, count) in outcome.notes {
            *self.notes.entry(name).or_default() += count;
        }
        self.sent = 0;
    }
}

/// The first call whose lines differ: its place, the Rust's line, the trace program's. If the program ends too early
/// or too late, the last call.
fn difference(trace: &str, calls: &[Vec<u32>]) -> Option<(usize, String, String)> {
    let mut oracle = Oracle::new();
    let lines: Vec<String> = calls.iter().map(|call| answer(&mut oracle, call)).collect();
    let whole = |said: String| Some((lines.len() - 1, format!("{} lines", lines.len()), said));
    let ours = match trace_lines(trace, bytes(calls)) {
        Ok(ours) => ours,
        Err(said) => return whole(said),
    };
    match lines.iter().zip(&ours).position(|(rust, ours)| rust != ours) {
        Some(at) => Some((at, lines[at].clone(), ours[at].clone())),
        None if lines.len() == ours.len() => None,
        None => whole(format!("{} lines", ours.len())),
    }
}

/// Drops calls, then list items, and lowers numbers, while a difference stays.
fn smallest(trace: &str, calls: &[Vec<u32>]) -> Vec<Vec<u32>> {
    let end = Instant::now() + Duration::from_secs(90);
    let mut best = calls.to_vec();
    let attempt = |best: &mut Vec<Vec<u32>>, candidate: Vec<Vec<u32>>| {
        let found = if Instant::now() < end { difference(trace, &candidate) } else { None };
        if let Some((at, _, _)) = &found {
            *best = candidate[..=*at].to_vec();
        }
        found.is_some()
    };
    let mut width = best.len().div_ceil(2).max(1);
    loop {
        let (mut from, mut shorter) = (0, false);
        while from < best.len() {
            let to = (from + width).min(best.len());
            let candidate = [&best[..from], &best[to..]].concat();
            if !candidate.is_empty() && attempt(&mut best, candidate) { shorter = true } else { from = to }
        }
        if width == 1 && !shorter {
            break;
        }
        width = width.div_ceil(2).max(1);
    }
    let mut again = true;
    while again {
        again = false;
        for at in 0..best.len() {
            // Where the items of the call's list begin, and how many words come after them.
            let (list, after) = match best.get(at).map(|call| call[0]) {
                Some(1 | 2) => (3, 0),
                Some(12 | 15) => (2, 0),
                Some(20) => (2, 1),
                Some(14) | None => continue,
                _ => (usize::MAX, 0),
            };
            let mut width = best[at].len();
            while list < best[at].len() && width > 0 {
                let mut place = list;
                while at < best.len() && place < best[at].len() - after {
                    let to = (place + width).min(best[at].len() - after);
                    let mut candidate = best.clone();
                    candidate[at].drain(place..to);
                    candidate[at][list - 1] -= (to - place) as u32;
                    if attempt(&mut best, candidate) { again = true } else { place = to }
                }
                if at >= best.len() {
                    break;
                }
                width /= 2;
            }
            // Numbers of a long list are left as they are.
            for place in 1..best.get(at).map_or(0, |call| call.len().min(12)) {
                let word = best[at][place];
                for lower in [0, 1, word / 2, word.saturating_sub(1)] {
                    if place + 1 != list && at < best.len() && lower < best[at][place] {
                        let mut candidate = best.clone();
                        candidate[at][place] = lower;
                        again |= attempt(&mut best, candidate);
                    }
                }
            }
        }
    }
    best
}

/// A list, with `a, .., b` for five or more numbers that follow one another.
fn list(items: &[u32]) -> String {
    let (mut parts, mut at): (Vec<String>, usize) = (vec![], 0);
    while at < items.len() {
        let follow = items[at..].iter().enumerate().take_while(|(nth, &item)| item as u64 == items[at] as u64 + *nth as u64).count();
        if follow < 5 {
            parts.push(items[at].to_string());
            at += 1;
        } else {
            parts.push(format!("{}, .., {}", items[at], items[at + follow - 1]));
            at += follow;
        }
    }
    format!("[{}]", parts.join(", "))
}

/// A call in plain text.
fn text(call: &[u32]) -> String {
    let used = |items: &[u32]| list(&items[..items.iter().rposition(|&word| word != 0).map_or(0, |last| last + 1)]);
    match call[0] {
        1 => format!("after {} {}", call[1], list(&call[3..])),
        2 => format!("push {} {}", list(&call[3..]), call[1]),
        5 => format!("cut from {}, room {}", call[1], call[2]),
        6 => format!("walk {}..{} known {} first {}, rooms {} {}", call[1], call[2], call[3], call[4], call[5], call[6]),
        7 => format!("replay, rooms {} {}", call[1], call[2]),
        8 => format!("archive points, room {}", call[1]),
        9 => format!("concurrency list of run {}, room {}", call[1], call[2]),
        12 => format!("extends_last_event {}", list(&call[2..])),
        14 => {
            let g = record::Record::read(call);
            let counts = format!("runs {}, entries {}, frontier {}, marks {}, changed_from {}", g.run_count, g.entry_count, g.frontier_count, g.mark_count, g.changed);
            let arrays = [("starts", &g.starts), ("parent starts", &g.parent_starts), ("parents", &g.parents), ("frontier", &g.frontier), ("seen", &g.seen), ("marks", &g.marks)];
            let arrays: Vec<String> = arrays.iter().map(|(name, array)| format!("{name} {}", used(array))).collect();
            format!("raw record: {counts}; {}; zeros after these. Broken by: {:?}", arrays.join(", "), g.faults())
        }
        15 => format!("step reader {}", list(&call[2..])),
        20 => format!("wanted parents of the ranges {}, room {}", list(&call[2..call.len() - 1]), call[call.len() - 1]),
        operation => call[1..].iter().fold(NAMES[operation as usize].to_string(), |line, word| format!("{line} {word}")),
    }
}

/// Prints a smallest script whose lines differ, and ends.
fn report(trace: &str, calls: &[Vec<u32>]) -> ! {
    let begin = calls.iter().rposition(|call| [0, 1, 14].contains(&call[0])).unwrap_or(0);
    println!("DIFFERENCE after {} calls of a run; looking for a smallest script", calls.len());
    // If the script alone shows none, it takes what came before it.
    let script = [&calls[begin..], calls].into_iter().find(|calls| difference(trace, calls).is_some());
    let Some(script) = script else {
        println!("the difference is not there again; the last script was:");
        calls[begin..].iter().for_each(|call| println!("    {}", text(call)));
        exit(1)
    };
    let script = smallest(trace, script);
    println!("from `new`:");
    script.iter().for_each(|call| println!("    {}", text(call)));
    if let Some((_, rust, ours)) = difference(trace, &script) {
        // Of long lines, the part where they begin to differ.
        let from = rust.bytes().zip(ours.bytes()).take_while(|(a, b)| a == b).count().saturating_sub(60);
        let part = |line: &str| if line.len() <= 300 { line.to_string() } else { format!(".. {} ..", line.get(from..).unwrap_or(line).chars().take(180).collect::<String>()) };
        println!("  Rust:  {}\n  trace: {}", part(&rust), part(&ours));
    }
    if script.concat().len() <= 100 {
        println!("as words: {:?}", script.concat());
    }
    exit(1)
}

fn totals(counts: &Counts) -> (u64, u64) {
    let lines = counts.values().sum();
    (lines - counts.iter().filter(|(key, _)| key.0 == 13).map(|(_, count)| count).sum::<u64>(), lines)
}

fn write_sample(folder: &str) {
    let mut feed = Feed::new("");
    for (name, first, last) in cases::feed_all(&mut feed) {
        println!("{name}: lines {first} to {last}");
    }
    scripts::sample(&mut feed);
    let calls: Vec<Vec<u32>> = feed.waiting.iter().map(|(call, _)| call.clone()).collect();
    let lines: String = feed.waiting.iter().map(|(_, line)| format!("{line}\n")).collect();
    std::fs::write(format!("{folder}/stdin"), bytes(&calls)).expect("a folder to write to");
    std::fs::write(format!("{folder}/stdout"), &lines).expect("a folder to write to");
    println!("{} calls; stdin has {} bytes, stdout {}", calls.len(), bytes(&calls).len(), lines.len());
}

fn main() {
    let args: Vec<String> = std::env::args().skip(1).collect();
    if args.len() == 2 && args[0] == "--sample" {
        return write_sample(&args[1]);
    }
    let usage = || -> ! {
        println!("compare TRACE [RANDOM [SEED [PART]]], or compare --sample DIR");
        exit(2)
    };
    let number = |nth: usize, default: u64| args.get(nth).map_or(default, |text| text.parse().unwrap_or_else(|_| usage()));
    let Some(trace) = args.first() else { usage() };
    let (count, seed) = (number(1, RANDOM as u64) as u32, number(2, 1));
    std::panic::set_hook(Box::new(|panic| {
        // A panic of the Rust, or where it and the model part, is reported with its script.
        if !panic.location().is_some_and(|at| at.file().ends_with("answers.rs") || at.file().ends_with("lib.rs")) {
            println!("{panic}");
        }
    }));

    let (mut all, mut notes) = (Counts::new(), Notes::new());
    let mut scripts = 0;
    let mut part = |title: &str, make: &dyn Fn(&mut Feed)| {
        if args.get(3).is_some_and(|words| !title.contains(words)) {
            return;
        }
        let (mut feed, begin) = (Feed::new(trace), Instant::now());
        make(&mut feed);
        feed.finish();
        let (calls, lines) = totals(&feed.counts);
        println!("{title}: {} scripts, {calls} calls, {lines} lines, all the same ({:.1} s)", feed.scripts, begin.elapsed().as_secs_f64());
        scripts += feed.scripts;
        for (key, count) in feed.counts {
            *all.entry(key).or_default() += count;
        }
        for (name, count) in feed.notes {
            *notes.entry(name).or_default() += count;
        }
    };
    part("the cases C1 to C11 of 01", &|feed| drop(cases::feed_all(feed)));
    part("walks beyond them: `first` above `known`, 65 ready runs, per_bit 2", &|feed| cases::feed_beyond(feed));
    part("records, one for each clause by which 01 calls a graph broken, and near misses", &|feed| records::by_clause(feed, true));
    part("random records, most with one word changed", &|feed| records::random(feed, (count / 4).max(1), seed));
    part("all lists of four calls from `new`, of three from each `after` of up to 2 events", &|feed| scripts::small(feed, 4));
    part("all lists of three calls from `new`, of two from each such `after`, and where every event lies", &|feed| scripts::sides(feed, 3));
    part("all graphs of up to six single events, asked everything", &|feed| scripts::all_graphs(feed, 6));
    part(&format!("{count} random scripts from seed {seed}, one in forty at the limits"), &|feed| scripts::random(feed, count, seed));
    part("run starts told true, made again: all lists of five calls from `new`, of four from each `after` of 1 or 2 events", &|feed| starts::small(feed, 5, 2));
    part("run starts told true, made again: random scripts, and with the tables full", &|feed| {
        starts::random(feed, (count / 10).max(1), seed);
        starts::full(feed)
    });
    part("archive points (02, F-6): all lists of four calls from `new`, of three from each `after` of 1 or 2 events", &|feed| points::small(feed, 4));
    part("archive points (02, F-6): random graphs in layers, graphs at the limits, records by hand", &|feed| {
        points::random(feed, (count / 5).max(1), seed);
        points::at_limits(feed, seed);
        points::records(feed, (count / 2).max(1), seed)
    });
    part("wanted parents (02, F-3): all lists of three calls from `new`, pushes of 1 to 3 events, of two from each `after` of 1 or 2 events, every mark in every room, each answer pushed", &|feed| wanted::small(feed, 3, 3));
    part("wanted parents (02, F-3): all lists of four words after all lists of two calls from `new`, of one from each such `after`; longer ones", &|feed| wanted::words(feed, 2));
    part("wanted parents (02, F-3): random graphs, graphs at the limits, records by hand", &|feed| {
        wanted::random(feed, (count / 5).max(1), seed);
        wanted::at_limits(feed, seed);
        wanted::records(feed, (count / 5).max(1), seed)
    });
    if scripts::WALKS {
        part("walks and replays in every room from 0 to enough", &|feed| walks::in_every_room(feed, (count / 40).max(1), seed));
        part("walks of random graphs, one in a hundred of about 512 runs", &|feed| walks::random(feed, (count / 2).max(1), seed));
        part("walks by the limits: 512 runs, 2,048 entries, 512 frontier events", &|feed| walks::at_limits(feed, seed));
    }

    let bad = scripts::bad_scripts();
    for script in &bad {
        let (rust, ours) = (Ok(answer_script(script)), trace_lines(trace, script.clone()));
        if rust != ours {
            println!("DIFFERENCE in a script that ends badly, bytes {script:?}:\n  Rust:  {rust:?}\n  trace: {ours:?}");
            exit(1);
        }
    }
    println!("scripts that end badly: {}, all the same", bad.len());

    let script = bytes(&[vec![vec![0], vec![2, 1, 0]], vec![vec![13]; 2000]].concat());
    match failing::trials("trace", trace, &script, &(answer_script(&script).join("\n") + "\n"), false) {
        Ok(runs) => println!("failed reads and writes: {runs} runs, no difference"),
        Err(why) => {
            println!("DIFFERENCE at a failed read or write: {why}");
            exit(1);
        }
    }

    let (calls, lines) = totals(&all);
    println!("\nin all {scripts} scripts, {calls} calls, {lines} lines with the graphs; by call and what it returned:");
    for (operation, name) in NAMES.iter().enumerate() {
        let of: Vec<(&String, u64)> = all.iter().filter(|(key, _)| key.0 == operation as u32).map(|(key, count)| (&key.1, *count)).collect();
        let mut parts: Vec<(u32, String)> = of.iter().map(|(returned, count)| (returned.parse().unwrap_or(0), format!("{returned}: {count}"))).collect();
        parts.sort();
        if !parts.is_empty() {
            let parts: Vec<String> = parts.into_iter().map(|(_, text)| text).collect();
            println!("  {name:10} {:9}   ({})", of.iter().map(|(_, count)| count).sum::<u64>(), parts.join(", "));
        }
    }
    for (name, count) in &notes {
        println!("  {name}: {count}");
    }
    println!("no difference");
}
