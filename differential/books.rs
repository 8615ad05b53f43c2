//! Holds the replay program against document 01's account of the book, as document 02 amends it (F-1): makes books, gives each to the
//! program, and compares what it prints. A book that is taken whole is replayed from the Rust's cuts and walks too. Then failed reads and
//! writes (failing.rs). At the first difference it prints the book and ends with status 1.
//!
//! books REPLAY [RANDOM [SEED]]   REPLAY: the program; RANDOM: how many random books; SEED: a number

#[allow(dead_code)]
mod calls;
mod failing;
#[allow(dead_code)]
mod model;

use model::{Graph, Triple, APPLY, LINEAR, OPEN};
use std::collections::BTreeMap;
use std::io::{ErrorKind, Write};
use std::process::{exit, Command, Stdio};
use std::sync::mpsc::channel;
use std::sync::{Arc, Mutex};
use std::thread;
use std::time::{Duration, Instant};
use strider_graph::CausalGraph;

const RANDOM: u64 = 60000;
/// No run of the program takes longer.
const HANGS: Duration = Duration::from_secs(60);
const LONGEST: usize = 65536;
const ROW_WORDS: usize = 8192;
const STEPS: usize = 4096;

// The account of the book, read word by word from a list of bytes.

struct Reader<'a> {
    left: &'a [u8],
}

impl Reader<'_> {
    fn word(&mut self) -> Option<u32> {
        let (word, left) = self.left.split_first_chunk::<4>()?;
        self.left = left;
        Some(u32::from_le_bytes(*word))
    }

    fn words(&mut self, count: u32) -> Option<Vec<u32>> {
        if self.left.len() / 4 < count as usize {
            return None;
        }
        (0..count).map(|_| self.word()).collect()
    }

    /// A word, a count and as many words.
    fn counted(&mut self) -> Option<(u32, Vec<u32>)> {
        let word = self.word()?;
        let count = self.word()?;
        Some((word, self.words(count)?))
    }
}

/// What a book is: a fresh start, pushes, and the refusal that it met, if any.
struct Account {
    graph: Graph,
    start: (u32, Vec<u32>),
    pushes: Vec<(u32, Vec<u32>)>,
    refusal: Option<String>,
}

fn account(book: &[u8]) -> Account {
    let mut a = Account { graph: Graph::new(), start: (0, vec![]), pushes: vec![], refusal: None };
    if let Err(refusal) = read(book, &mut a) {
        a.refusal = Some(refusal);
    }
    a
}

fn read(book: &[u8], a: &mut Account) -> Result<(), String> {
    // 02, F-1: "Let a book of length 0 mean a fresh graph from `new`".
    if book.is_empty() {
        return Ok(());
    }
    if book.len() > LONGEST {
        return Err("refused 15".into());
    }
    let early = || "refused 14".to_string();
    let mut reader = Reader { left: book };
    let (first, frontier) = reader.counted().ok_or_else(early)?;
    let pushes = reader.word().ok_or_else(early)?;
    a.graph = Graph::after(first, &frontier).map_err(|number| format!("refused {number}"))?;
    a.start = (first, frontier);
    for k in 0..pushes {
        let (len, parents) = reader.counted().ok_or_else(early)?;
        a.graph.push(&parents, len).map_err(|number| format!("refused {number} push {k}"))?;
        a.pushes.push((len, parents));
    }
    if reader.left.is_empty() { Ok(()) } else { Err("refused 15".into()) }
}

/// The steps of a full replay, and how many of them come before a range whose rows are too long.
fn replay(graph: &Graph) -> (Vec<Triple>, Option<usize>) {
    let mut steps = vec![];
    for [kind, from, to] in graph.cut(0).unwrap() {
        steps.push([OPEN, from, to]);
        if kind == LINEAR {
            steps.extend((from..to).map(|run| [APPLY, run, run + 1]));
            continue;
        }
        let walked = graph.walk(from, to, 0, 0).unwrap();
        if walked.rows.iter().map(|row| row.len()).sum::<usize>() > ROW_WORDS {
            return (steps.clone(), Some(steps.len()));
        }
        steps.extend(walked.steps);
    }
    (steps, None)
}

fn line(step: &Triple) -> String {
    match step[0] {
        APPLY => format!("apply {}\n", step[1]),
        kind => format!("{} {} {}\n", ["retreat", "advance", "", "open"][kind as usize], step[1], step[2]),
    }
}

/// What `replay` is to print; where the Rust parts from 01's account, what it does.
fn expected(book: &[u8]) -> Result<String, String> {
    let a = account(book);
    if let Some(refusal) = a.refusal {
        return Ok(refusal + "\n");
    }
    let (steps, rows) = replay(&a.graph);
    if rows.is_none() {
        let rust = rust_replay(&a);
        if rust != steps {
            return Err(format!("the Rust replays it otherwise:\n{}", rust.iter().map(line).collect::<String>()));
        }
    }
    let fit = &steps[..steps.len().min(STEPS)];
    let last = if steps.len() > STEPS {
        "refused 11".into()
    } else if rows.is_some() {
        "refused 13".into()
    } else {
        format!("moved {}", a.graph.moved(fit))
    };
    Ok(fit.iter().map(line).collect::<String>() + &last + "\n")
}

fn rust_replay(a: &Account) -> Vec<Triple> {
    let mut graph = CausalGraph::after(a.start.0, &a.start.1);
    for (len, parents) in &a.pushes {
        graph.push(parents, *len);
    }
    let mut steps = vec![];
    for [kind, from, to] in calls::rust_cut(&graph, 0) {
        steps.push([OPEN, from, to]);
        if kind == LINEAR {
            steps.extend((from..to).map(|run| [APPLY, run, run + 1]));
        } else {
            steps.extend(calls::rust_walk(&graph, from, to, 0, 0));
        }
    }
    steps
}

// Books.

struct Random(u64);

impl Random {
    fn next(&mut self) -> u64 {
        self.0 ^= self.0 << 13;
        self.0 ^= self.0 >> 7;
        self.0 ^= self.0 << 17;
        self.0.wrapping_mul(0x2545f4914f6cdd1d) >> 11
    }

    fn below(&mut self, n: u64) -> u64 {
        self.next() % n
    }

    fn one_in(&mut self, n: u64) -> bool {
        self.below(n) == 0
    }
}

fn bytes(words: &[u32]) -> Vec<u8> {
    words.iter().flat_map(|word| word.to_le_bytes()).collect()
}

fn book(first: u32, frontier: &[u32], pushes: &[(u32, Vec<u32>)]) -> Vec<u8> {
    let mut words = vec![first, frontier.len() as u32];
    words.extend(frontier);
    words.push(pushes.len() as u32);
    for (len, parents) in pushes {
        words.extend([*len, parents.len() as u32]);
        words.extend(parents);
    }
    bytes(&words)
}

/// All books of a few small pushes.
fn small(give: &mut dyn FnMut(Vec<u8>)) {
    let lists: [&[u32]; 8] = [&[], &[0], &[1], &[2], &[0, 1], &[0, 2], &[1, 2], &[1, 0]];
    let pushes: Vec<(u32, Vec<u32>)> = (0..3).flat_map(|len| lists.map(|parents| (len, parents.to_vec()))).collect();
    let heads: [(u32, &[u32]); 9] = [(0, &[]), (1, &[]), (1, &[0]), (2, &[1]), (2, &[0, 1]), (3, &[0, 2]), (0, &[0]), (2, &[1, 0]), (2, &[1, 1])];
    for (first, frontier) in heads {
        give(book(first, frontier, &[]));
        for a in &pushes {
            give(book(first, frontier, &[a.clone()]));
            for b in &pushes {
                give(book(first, frontier, &[a.clone(), b.clone()]));
            }
        }
    }
    let longer: Vec<(u32, Vec<u32>)> = [1, 2].iter().flat_map(|&len| lists[..7].iter().map(move |parents| (len, parents.to_vec()))).collect();
    for a in [1, 2, 3] {
        for b in &longer {
            for c in &longer {
                for d in &longer {
                    give(book(0, &[], &[(a, vec![]), b.clone(), c.clone(), d.clone()]));
                }
            }
        }
    }
}

/// Some rising events below `len`, mostly late ones.
fn some_events(random: &mut Random, len: u32, most: u64) -> Vec<u32> {
    let mut events: Vec<u32> = (0..random.below(most + 1))
        .map(|_| {
            let back = if random.one_in(4) { len as u64 } else { 8.min(len as u64) };
            (len as u64 - 1 - random.below(back)) as u32
        })
        .collect();
    events.sort();
    events.dedup();
    events
}

/// A book that is mostly taken.
fn random_book(random: &mut Random) -> Vec<u8> {
    let first = if random.one_in(3) { random.below(20) as u32 } else { 0 };
    let frontier = if first > 0 { some_events(random, first, 3) } else { vec![] };
    let mut graph = Graph::after(first, &frontier).unwrap();
    let most = if random.one_in(40) { 400 } else { 24 };
    let lens = [1, 1, 3, 20, 1000, 4000000][random.below(6) as usize];
    let wide = [1, 2, 3, 8][random.below(4) as usize];
    let mut pushes = vec![];
    for _ in 0..random.below(most + 1) {
        let parents = match random.below(8) {
            _ if graph.len() == 0 => vec![],
            0 => vec![],
            1 => graph.frontier.clone(),
            2 => vec![graph.len() - 1],
            3 => graph.frontier.iter().copied().filter(|_| random.one_in(2)).collect(),
            _ => some_events(random, graph.len(), wide),
        };
        let len = 1 + random.below(lens) as u32;
        let _ = graph.push(&parents, len);
        pushes.push((len, parents));
    }
    book(first, &frontier, &pushes)
}

/// The same book with one thing wrong.
fn damaged(random: &mut Random, book: &[u8]) -> Vec<u8> {
    let mut book = book.to_vec();
    let word = 4 * random.below(book.len() as u64 / 4) as usize;
    let mut put = |n: u32| book[word..word + 4].copy_from_slice(&n.to_le_bytes());
    match random.below(8) {
        0 => book.truncate(random.below(book.len() as u64) as usize),
        1 => book.truncate(word),
        2 => book.extend((0..=random.below(12)).map(|i| i as u8)),
        3 => put(0),
        4 => put(u32::MAX),
        5 => put(random.next() as u32),
        6 => put(random.below(100) as u32),
        _ => book[word + random.below(4) as usize] ^= 1 << random.below(8),
    }
    book
}

/// A chain of pushes in a book of 65,536 bytes.
fn longest() -> Vec<u8> {
    book(1, &[0], &(0..5460).map(|k| (1, vec![k])).collect::<Vec<_>>())
}

/// Books at the limits: of length, runs, entries, frontier events, event numbers, row words and steps.
fn limits(random: &mut Random, give: &mut dyn FnMut(Vec<u8>)) {
    let whole = longest();
    assert_eq!(whole.len(), LONGEST);
    for cut in [1, 2, 3, 4, 5, 8, 11, 12, 13] {
        give(whole[..LONGEST - cut].to_vec());
    }
    give(whole.clone());
    for more in [1, 2, 3, 4, 5, 4096, 65536, 200000] {
        give([&whole[..], &vec![0; more]].concat());
        give(vec![0; LONGEST + more]);
    }
    for length in 0..64 {
        give(vec![0; length]);
        give(whole[..length].to_vec());
    }
    give(vec![0; LONGEST]);
    give(vec![255; LONGEST]);
    give(book(0, &[], &vec![(0, vec![0; 300]); 60]));
    // as many parents as a book holds
    give(bytes(&[vec![0, 0, 2, 20000, 0, 1, 16377], (0..16377).collect()].concat()));
    give(bytes(&[vec![0, 0, 2, 20000, 0, 1, 16377], (0..16376).collect(), vec![16375]].concat()));
    let roots = |n: u32| vec![(1, vec![]); n as usize];
    for n in [126, 127, 128, 129, 511, 512, 513, 600] {
        give(book(0, &[], &roots(n)));
        give(book(7, &[2, 3], &roots(n)));
    }
    for n in [44, 45, 46] {
        for m in 43..48 {
            give(book(0, &[], &[roots(n), vec![(1, (0..n).collect()); m]].concat()));
        }
    }
    for n in [511, 512, 513] {
        for events in [n - 1, n, 1000] {
            give(book(events, &(0..n).collect::<Vec<_>>(), &[(1, vec![])]));
            give(book(events, &(0..n).collect::<Vec<_>>(), &[(1, vec![3]), (1, vec![]), (1, vec![])]));
        }
    }
    for len in [u32::MAX, u32::MAX - 1] {
        give(book(0, &[], &[(len, vec![])]));
        give(book(0, &[], &[(len, vec![]), (1, vec![len - 1])]));
        give(book(0, &[], &[(len, vec![]), (1, vec![]), (1, vec![0])]));
    }
    give(book(0, &[], &[(1, vec![]), (2147483646, vec![]), (2147483640, vec![]), (1, vec![0, 2147483646]), (1, vec![0, 4294967286])]));
    give(book(0, &[], &[(4000, vec![]), (1, (0..4000).step_by(7).collect())]));
    for _ in 0..60 {
        // writers who take turns and never merge, and then readers who have each seen something else of them: more steps than fit
        let writers = 4 + random.below(6) as u32;
        let turns = 10 + random.below(35) as u32;
        let mut pushes: Vec<(u32, Vec<u32>)> =
            (0..writers * turns).map(|k| (1, if k < writers { vec![] } else { vec![k - writers] })).collect();
        for _ in 0..20 + random.below(80) {
            let mut seen: Vec<u32> = (0..writers).map(|writer| random.below(turns as u64) as u32 * writers + writer).collect();
            seen.sort();
            pushes.push((1, seen));
        }
        give(book(0, &[], &pushes));
    }
    for _ in 0..200 {
        // a few writers who take turns, and merge now and then: many moves, many row words
        let writers = 2 + random.below(12) as u32;
        let merges = 2 + random.below(40);
        let mut tips: Vec<u32> = vec![];
        let mut pushes: Vec<(u32, Vec<u32>)> = vec![];
        for k in 0..100 + random.below(420) as u32 {
            let writer = (k % writers) as usize;
            let mut parents = match tips.get(writer) {
                Some(&tip) => vec![tip],
                None => vec![],
            };
            if random.one_in(merges) && !tips.is_empty() {
                parents.push(tips[random.below(tips.len() as u64) as usize]);
            }
            parents.sort();
            parents.dedup();
            pushes.push((1, parents));
            if writer < tips.len() { tips[writer] = k } else { tips.push(k) }
        }
        give(book(0, &[], &pushes));
    }
}

// Runs.

fn printed(program: &str, book: &[u8]) -> Result<String, String> {
    let mut command = Command::new(program);
    let mut child = command.stdin(Stdio::piped()).stdout(Stdio::piped()).stderr(Stdio::piped()).spawn().map_err(|e| e.to_string())?;
    let wrote = child.stdin.take().unwrap().write_all(book);
    let ended = child.wait_with_output().map_err(|e| e.to_string())?;
    let text = String::from_utf8_lossy(&ended.stdout).into_owned();
    let told = String::from_utf8_lossy(&ended.stderr);
    match wrote {
        // One byte too many is enough: the rest of a longer book is not read.
        Err(e) if book.len() <= LONGEST + 1 || e.kind() != ErrorKind::BrokenPipe => Err(format!("the program did not read the book to its end: {e}")),
        _ if !ended.status.success() || !told.is_empty() => Err(format!("the program ended with {}, after:\n{text}{told}", ended.status)),
        _ => Ok(text),
    }
}

fn report(book: &[u8], wanted: &str, got: &str) -> ! {
    let words: Vec<String> = book.chunks_exact(4).map(|w| u32::from_le_bytes(w.try_into().unwrap()).to_string()).collect();
    println!("A book of {} bytes, its words:\n{}", book.len(), words.join(" "));
    println!("and bytes after them: {:?}", &book[book.len() / 4 * 4..]);
    println!("-- 01 and 02 say:\n{wanted}-- replay prints:\n{got}");
    exit(1)
}

/// The last line without its numbers, but for a refusal's.
fn kind(text: &str) -> String {
    let last = text.lines().last().unwrap_or("");
    let words: Vec<&str> = last.split(' ').collect();
    match words[..] {
        ["moved", _] => "moved".into(),
        ["refused", n, "push", _] => format!("refused {n} push"),
        _ => last.into(),
    }
}

fn main() {
    let mut args = std::env::args().skip(1);
    let Some(program) = args.next() else { panic!("books REPLAY [RANDOM [SEED]]") };
    let count = args.next().map_or(RANDOM, |n| n.parse().unwrap());
    let seed = args.next().map_or(1, |n| n.parse().unwrap());

    let (send, receive) = channel::<Vec<u8>>();
    let receive = Arc::new(Mutex::new(receive));
    let counts = Arc::new(Mutex::new(BTreeMap::<String, u64>::new()));
    let lines = Arc::new(Mutex::new(0u64));
    let workers: Vec<_> = (0..thread::available_parallelism().map_or(2, |n| n.get()))
        .map(|_| {
            let (program, receive, counts, lines) = (program.clone(), receive.clone(), counts.clone(), lines.clone());
            thread::spawn(move || loop {
                let Ok(book) = ({ receive.lock().unwrap().recv() }) else { break };
                let begun = Instant::now();
                let got = printed(&program, &book).unwrap_or_else(|e| e + "\n");
                if begun.elapsed() > HANGS {
                    report(&book, "", "nothing in time\n");
                }
                match expected(&book) {
                    Ok(wanted) if wanted == got => {
                        *counts.lock().unwrap().entry(kind(&got)).or_default() += 1;
                        *lines.lock().unwrap() += got.lines().count() as u64;
                    }
                    Ok(wanted) => report(&book, &wanted, &got),
                    Err(why) => report(&book, &(why + "\n"), &got),
                }
            })
        })
        .collect();

    let mut random = Random(seed * 2 + 88172645463325252);
    let mut given = 0u64;
    let mut give = |book: Vec<u8>| {
        given += 1;
        send.send(book).unwrap();
    };
    limits(&mut random, &mut give);
    small(&mut give);
    for _ in 0..count {
        let book = random_book(&mut random);
        give(damaged(&mut random, &book));
        give(book);
    }
    drop(send);
    for worker in workers {
        worker.join().unwrap();
    }
    for (what, n) in counts.lock().unwrap().iter() {
        println!("{n:9}  {what}");
    }
    println!("{given} books, {} lines, no difference", lines.lock().unwrap());
    let trials = |book: &[u8]| failing::trials("replay", &program, book, &expected(book).unwrap(), true);
    let some = book(0, &[], &vec![(1, vec![]); 80]);
    match trials(&some).and_then(|runs| Ok(runs + trials(&[])?)) {
        Ok(runs) => println!("failed reads and writes, and endless inputs: {runs} runs, no difference"),
        Err(why) => {
            println!("DIFFERENCE at a failed read or write, or an endless input: {why}");
            exit(1)
        }
    }
}
