//! Answers the trace program's calls (little-endian 32-bit words) in its lines, from the Rust.
//!
//! From the Rust: every push, run start, take, cut, walk step and lookup that 01 accepts, and the
//! starts, parents, frontier and marks. From 01's plain model, since the Rust has no such thing or
//! keeps it private: the refusals, the rows, the seen lengths, `changed_from` between takes, the
//! archive points (02, F-6) and the wanted parents (F-3), of starts and parents that are the Rust's.
//! Each answer that both have is compared; where they part it panics and says so.
//! After a raw record (operation 14), which cannot be put into the Rust, the model answers alone;
//! where the record is broken, all that looks at the graph is refused by 1.

use crate::calls::{rust_cut, rust_marks, rust_parents, rust_starts, rust_walk};
use crate::model::{Graph, Side, Triple, APPLY, LINEAR, OPEN};
use crate::record::{self, Record};
use std::fmt::{Debug, Display};
use strider_graph::CausalGraph;

/// The words that the trace program can lend: to rows, to steps and all other answers (the areas `rows` and `steps` of its
/// main.rt), and to a list in the script (`list`).
pub const ROW_ROOM: u32 = 131328;
pub const STEP_ROOM: u32 = 524288;
pub const LIST_ROOM: u32 = 65536;

/// Whether the rooms that a call asks for are the program's own.
fn has_rooms(call: &[u32]) -> bool {
    let within = |at: usize, room: u32| call[at] <= room;
    match call[0] {
        5 | 9 => within(2, STEP_ROOM),
        6 => within(5, ROW_ROOM) && within(6, STEP_ROOM),
        7 => within(1, ROW_ROOM) && within(2, STEP_ROOM),
        8 => within(1, STEP_ROOM),
        20 => within(2 + call[1] as usize, STEP_ROOM),
        _ => true,
    }
}

/// How many words the script's first call has; none if it is cut off, unknown, or asks for more room than there is.
pub fn call_length(script: &[u32]) -> Option<usize> {
    let counted = |at: usize| script.get(at).filter(|&&count| count <= LIST_ROOM).map(|&count| at + 1 + count as usize);
    let length = match script.first()? {
        0 | 4 | 13 => 1,
        3 | 8 | 10 | 11 => 2,
        5 | 7 | 9 => 3,
        6 => 7,
        12 | 15 => counted(1)?,
        1 | 2 => counted(2)?,
        14 => record::WORDS,
        20 => counted(1)? + 1,
        _ => return None,
    };
    Some(length).filter(|&length| length <= script.len() && has_rooms(script))
}

/// The lines of a whole script.
pub fn answer_script(bytes: &[u8]) -> Vec<String> {
    let words: Vec<u32> = bytes.chunks_exact(4).map(|word| u32::from_le_bytes(word.try_into().unwrap())).collect();
    let (mut left, mut oracle, mut lines) = (&words[..], Oracle::new(), vec![]);
    while let Some(length) = call_length(left) {
        lines.push(oracle.answer(&left[..length]));
        left = &left[length..];
    }
    if !left.is_empty() || bytes.len() % 4 != 0 {
        lines.push("bad script".into());
    }
    lines
}

fn words<T: Display>(items: impl IntoIterator<Item = T>) -> String {
    items.into_iter().map(|item| format!(" {item}")).collect()
}

fn number<T>(answer: &Result<T, u32>) -> u32 {
    answer.as_ref().err().copied().unwrap_or(0)
}

/// The model's answer; panics if the Rust has another.
fn same<T: PartialEq + Debug>(what: &str, rust: Option<T>, model: T) -> T {
    if let Some(rust) = rust {
        if rust != model {
            panic!("the Rust and the model part at {what}: {rust:?}, {model:?}");
        }
    }
    model
}

#[derive(Default)]
struct Written {
    refusal: u32,
    rows: Vec<u32>,
    steps: Vec<Triple>,
}

pub struct Oracle {
    /// None after a raw record.
    rust: Option<CausalGraph>,
    pub model: Graph,
    /// After a raw record that is broken; the model is then no matter.
    pub broken: bool,
}

/// What a call that looks at the graph answers if that is broken.
fn of_broken(operation: u32) -> &'static str {
    match operation {
        2 => "push 1 0 0",
        3 => "start 1 0",
        4 => "take 1 0",
        5 => "cut 1 0 :",
        6 => "walk 1 0 0 : :",
        7 => "replay 1 0 0 : :",
        8 => "archive 1 0 :",
        9 => "concurrent 1 0 :",
        10 => "run 1 0 : 1 0 0 : 1",
        11 => "event 1 0 0",
        12 => "extends 1 0",
        13 => "graph 1",
        _ => "wanted 1 0 :",
    }
}

impl Oracle {
    pub fn new() -> Self {
        Oracle { rust: Some(CausalGraph::new()), model: Graph::new(), broken: false }
    }

    fn of_rust<T>(&self, ask: impl Fn(&CausalGraph) -> T) -> Option<T> {
        self.rust.as_ref().map(ask)
    }

    fn marks(&self) -> Vec<u32> {
        same("marks", self.of_rust(rust_marks), self.model.marks())
    }

    fn cut(&self, from: u32) -> Result<Vec<Triple>, u32> {
        let ranges = self.model.cut(from)?;
        Ok(same("a cut", self.of_rust(|rust| rust_cut(rust, from)), ranges))
    }

    /// The runs beside a run, rising: neither it nor its ancestors nor its descendants, by the parents of runs.
    fn beside(&self, run: usize) -> Vec<u32> {
        let parents = same("parents", self.of_rust(rust_parents), self.model.parents.clone());
        let mut near = vec![false; parents.len()];
        near[run] = true;
        for later in run + 1..parents.len() {
            near[later] = parents[later].iter().any(|&parent| parent as usize >= run && near[parent as usize]);
        }
        let mut todo = vec![run];
        while let Some(at) = todo.pop() {
            for &parent in &parents[at] {
                if !near[parent as usize] {
                    near[parent as usize] = true;
                    todo.push(parent as usize);
                }
            }
        }
        (0..parents.len()).filter(|&other| !near[other]).map(|other| other as u32).collect()
    }

    /// Writes rows over those left before; false if not all fit.
    fn write_rows(rows: &[Vec<u32>], room: usize, area: &mut Vec<u32>) -> bool {
        let mut used = 0;
        for row in rows {
            if used + row.len() > room {
                return false;
            }
            for &word in row {
                if used < area.len() { area[used] = word } else { area.push(word) }
                used += 1;
            }
        }
        true
    }

    fn write_steps(steps: &[Triple], room: usize, list: &mut Vec<Triple>) -> bool {
        let fit = steps.len().min(room / 3 - list.len());
        list.extend(&steps[..fit]);
        fit == steps.len()
    }

    fn steps(&self, from: u32, to: u32, known: u32, first: u32, steps: Vec<Triple>) -> Vec<Triple> {
        same("a walk", self.of_rust(|rust| rust_walk(rust, from, to, known, first)), steps)
    }

    fn walk(&self, from: u32, to: u32, known: u32, first: u32, row_room: usize, step_room: usize) -> Written {
        let walked = match self.model.walk(from, to, known, first) {
            Err(refusal) => return Written { refusal, ..Written::default() },
            Ok(walked) => walked,
        };
        let steps = self.steps(from, to, known, first, walked.steps);
        let mut written = Written::default();
        if !Self::write_rows(&walked.rows, row_room, &mut written.rows) {
            written.refusal = 13;
        } else if !Self::write_steps(&steps, step_room, &mut written.steps) {
            written.refusal = 11;
        }
        written
    }

    fn replay(&self, row_room: usize, step_room: usize) -> Written {
        let mut written = Written::default();
        let ranges = if self.model.runs() == 0 { vec![] } else { self.cut(0).expect("run 0 is marked") };
        for [kind, from, to] in ranges {
            let mut rows = vec![];
            let mut steps: Vec<Triple> = (from..to).map(|run| [APPLY, run, run + 1]).collect();
            if kind != LINEAR {
                let walked = self.model.walk(from, to, 0, 0).unwrap_or_else(|_| unreachable!());
                rows = walked.rows;
                steps = self.steps(from, to, 0, 0, walked.steps);
            }
            if !Self::write_steps(&[[OPEN, from, to]], step_room, &mut written.steps) {
                written.refusal = 11;
            } else if !Self::write_rows(&rows, row_room, &mut written.rows) {
                written.refusal = 13;
            } else if !Self::write_steps(&steps, step_room, &mut written.steps) {
                written.refusal = 11;
            }
            if written.refusal != 0 {
                break;
            }
        }
        written
    }

    fn written(&self, name: &str, written: &Written) -> String {
        let (steps, moved) = (&written.steps, self.model.moved(&written.steps));
        format!("{name} {} {} {moved} :{} :{}", written.refusal, steps.len(), words(&written.rows), words(steps.iter().flatten()))
    }

    fn begin(&mut self, rust: CausalGraph, model: Graph) {
        *self = Oracle { rust: Some(rust), model, broken: false };
    }

    /// A call's line. The call is whole, as `call_length` says.
    pub fn answer(&mut self, call: &[u32]) -> String {
        let room = |at: usize| call[at] as usize;
        if self.broken && matches!(call[0], 2..=13 | 20) {
            return of_broken(call[0]).into();
        }
        match call[0] {
            0 => {
                self.begin(CausalGraph::new(), Graph::new());
                "new".into()
            }
            1 => {
                let (events, frontier) = (call[1], &call[3..]);
                let answer = Graph::after(events, frontier);
                let refusal = number(&answer);
                match answer {
                    Ok(graph) => self.begin(CausalGraph::after(events, frontier), graph),
                    Err(_) => self.begin(CausalGraph::new(), Graph::new()),
                }
                format!("after {refusal}")
            }
            2 => {
                let (len, parents) = (call[1], &call[3..]);
                match self.model.push(parents, len) {
                    Ok(events) => {
                        let range = self.rust.as_mut().map(|rust| rust.push(parents, len));
                        let (first, end) = same("a push", range.map(|range| (range.start, range.end)), events);
                        format!("push 0 {first} {end}")
                    }
                    Err(refusal) => format!("push {refusal} 0 0"),
                }
            }
            3 => match self.model.start_run_at(call[1]) {
                Ok(told) => {
                    let of_rust = self.rust.as_mut().map(|rust| rust.start_run_at(call[1]));
                    format!("start 0 {}", same("a run start", of_rust, told) as u32)
                }
                Err(refusal) => format!("start {refusal} 0"),
            },
            4 => {
                let of_rust = self.rust.as_mut().map(|rust| rust.take_changed_from());
                format!("take 0 {}", same("a take", of_rust, self.model.take_changed_from()))
            }
            5 => match self.cut(call[1]) {
                Ok(ranges) => {
                    let fit = ranges.len().min(room(2) / 3);
                    format!("cut {} {fit} :{}", if fit < ranges.len() { 11 } else { 0 }, words(ranges[..fit].iter().flatten()))
                }
                Err(refusal) => format!("cut {refusal} 0 :"),
            },
            6 => self.written("walk", &self.walk(call[1], call[2], call[3], call[4], room(5), room(6))),
            7 => self.written("replay", &self.replay(room(1), room(2))),
            8 => {
                same("starts", self.of_rust(rust_starts), self.model.starts.clone());
                same("parents", self.of_rust(rust_parents), self.model.parents.clone());
                let points = self.model.archive_points();
                let fit = points.len().min(room(1));
                format!("archive {} {fit} :{}", if fit < points.len() { 11 } else { 0 }, words(&points[..fit]))
            }
            9 => {
                if call[1] as usize >= self.model.runs() {
                    return "concurrent 9 0 :".into();
                }
                let others = self.beside(room(1));
                if others.len() > room(2) { "concurrent 11 0 :".into() } else { format!("concurrent 0 {} :{}", others.len(), words(&others)) }
            }
            10 => {
                let run = call[1];
                let start = self.model.start(run).map(|start| same("start", self.of_rust(|rust| rust.runs().start(run)), start));
                let events = self.model.events(run).map(|(first, end)| same("events", self.of_rust(|rust| rust.runs().events(run)), first..end));
                let parents = self.model.parents_of(run).map(|parents| same("parents", self.of_rust(|rust| rust.runs().parents(run).to_vec()), parents.to_vec()));
                let (refusals, range) = ((number(&start), number(&events), number(&parents)), events.unwrap_or(0..0));
                format!("run {} {} : {} {} {} : {}{}", refusals.0, start.unwrap_or(0), refusals.1, range.start, range.end, refusals.2, words(parents.unwrap_or_default()))
            }
            11 => match self.model.containing(call[1]) {
                Side::Run(run) => format!("event 0 0 {}", same("containing", self.of_rust(|rust| rust.runs().containing(call[1])), run)),
                Side::Before => "event 0 1 0".into(),
                Side::Unknown => "event 0 2 0".into(),
            },
            12 => {
                let list = &call[2..];
                format!("extends 0 {}", same("extends_last_event", self.of_rust(|rust| rust.extends_last_event(list)), self.model.extends_last_event(list)) as u32)
            }
            13 => {
                let model = &self.model;
                let starts = same("starts", self.of_rust(rust_starts), model.starts.clone());
                let parents = same("parents", self.of_rust(rust_parents), model.parents.clone());
                let frontier = same("frontier", self.of_rust(|rust| rust.frontier().to_vec()), model.frontier.clone());
                let ends = same("len and first held", self.of_rust(|rust| (rust.len(), rust.first_held_event())), (model.len(), model.first_held()));
                let empty = same("no runs", self.of_rust(|rust| rust.runs().is_empty()), model.runs() == 0);
                let parents: Vec<String> = parents.iter().map(words).collect();
                let (head, seen) = (format!("graph 0 {} {} {}", ends.0, ends.1, empty as u32), words(&model.seen));
                format!("{head} :{} :{} :{seen} :{} : {} :{}", words(frontier), words(starts), words(self.marks()), model.changed, parents.join(" /"))
            }
            14 => {
                let record = Record::read(call);
                self.rust = None;
                self.broken = !record.faults().is_empty();
                if !self.broken {
                    self.model = record.graph();
                }
                "raw".into()
            }
            20 => {
                same("starts", self.of_rust(rust_starts), self.model.starts.clone());
                same("parents", self.of_rust(rust_parents), self.model.parents.clone());
                match self.model.wanted_parents(&call[2..call.len() - 1]) {
                    Err(refusal) => format!("wanted {refusal} 0 :"),
                    Ok(list) if list.len() > room(call.len() - 1) => "wanted 11 0 :".into(),
                    Ok(list) => format!("wanted 0 {} :{}", list.len(), words(&list)),
                }
            }
            _ => {
                let mut line = "reader".to_string();
                for step in call[2..].chunks_exact(3) {
                    if step[0] > 3 {
                        return line + " refused 16";
                    }
                    let end = if step[0] == 2 { step[1] as u64 + 1 } else { step[2] as u64 };
                    line += &format!(" {} {} {}", step[0], step[1], end);
                }
                line + " end"
            }
        }
    }
}
