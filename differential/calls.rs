//! A call with its arguments, made on the Rust's graph and on document 01's plain model.
//! Both answers are text in the same form, so that equal answers are equal text.

use crate::model::{self, Graph, Side, Triple};
use std::fmt;
use std::panic::{catch_unwind, AssertUnwindSafe};
use strider_graph::{walk, CausalGraph, HistoryRange, WalkStep};

#[derive(Clone)]
pub enum Call {
    New,
    After(u32, Vec<u32>),
    Push(Vec<u32>, u32),
    StartRunAt(u32),
    Take,
    IsEmpty,
    Start(u32),
    Events(u32),
    Parents(u32),
    Containing(u32),
    Extends(Vec<u32>),
    Cut(u32),
    /// First run, end run, `known`, `first`.
    Walk(u32, u32, u32, u32),
    /// All that the public calls tell of the graph's state, but for `changed_from`.
    Graph,
}
use Call::*;

/// A list, shortened where it is long.
pub fn list(items: &[u32]) -> String {
    match items {
        [first, .., last] if items.len() > 12 => format!("[{first}, .., {last}] ({} of them)", items.len()),
        _ => format!("{items:?}"),
    }
}

impl fmt::Display for Call {
    fn fmt(&self, f: &mut fmt::Formatter) -> fmt::Result {
        match self {
            New => write!(f, "new"),
            After(events, frontier) => write!(f, "after {events} {}", list(frontier)),
            Push(parents, len) => write!(f, "push {} {len}", list(parents)),
            StartRunAt(at) => write!(f, "start_run_at {at}"),
            Take => write!(f, "take_changed_from"),
            IsEmpty => write!(f, "is_empty"),
            Start(run) => write!(f, "start {run}"),
            Events(run) => write!(f, "events {run}"),
            Parents(run) => write!(f, "parents {run}"),
            Containing(event) => write!(f, "containing {event}"),
            Extends(parents) => write!(f, "extends_last_event {}", list(parents)),
            Cut(from) => write!(f, "split_at_critical_versions_from {from}"),
            Walk(from, to, known, first) => write!(f, "walk {from}..{to} known {known} first {first}"),
            Graph => write!(f, "the graph"),
        }
    }
}

pub fn cut_text(ranges: &[Triple]) -> String {
    let name = |range: &Triple| format!("{} {}..{}", ["Linear", "Concurrent"][range[0] as usize], range[1], range[2]);
    if ranges.is_empty() { "no ranges".into() } else { ranges.iter().map(name).collect::<Vec<_>>().join(", ") }
}

pub fn steps_text(steps: &[Triple]) -> String {
    let name = |step: &Triple| match step[0] {
        model::APPLY => format!("apply {}", step[1]),
        kind => format!("{} {}..{}", ["retreat", "advance", "", "open"][kind as usize], step[1], step[2]),
    };
    if steps.is_empty() { "no steps".into() } else { steps.iter().map(name).collect::<Vec<_>>().join(", ") }
}

fn graph_text(starts: &[u32], parents: &[Vec<u32>], frontier: &[u32], marks: &[u32]) -> String {
    let parents = if parents.len() > 8 { format!("of {} runs", parents.len()) } else { format!("{parents:?}") };
    format!("starts {}, parents {parents}, frontier {}, marked {}", list(starts), list(frontier), list(marks))
}

pub fn rust_cut(graph: &CausalGraph, from: u32) -> Vec<Triple> {
    let triple = |range: &HistoryRange| match range {
        HistoryRange::Linear(runs) => [model::LINEAR, runs.start, runs.end],
        HistoryRange::Concurrent(runs) => [model::CONCURRENT, runs.start, runs.end],
    };
    graph.split_at_critical_versions_from(from).iter().map(triple).collect()
}

/// The marked runs: those of a Linear range, and the first of a Concurrent one.
pub fn rust_marks(graph: &CausalGraph) -> Vec<u32> {
    let marks = |range: &Triple| if range[0] == model::LINEAR { range[1]..range[2] } else { range[1]..range[1] + 1 };
    rust_cut(graph, 0).iter().flat_map(marks).collect()
}

pub fn rust_starts(graph: &CausalGraph) -> Vec<u32> {
    (0..=graph.runs().len()).map(|run| graph.runs().start(run)).collect()
}

pub fn rust_parents(graph: &CausalGraph) -> Vec<Vec<u32>> {
    (0..graph.runs().len()).map(|run| graph.runs().parents(run).to_vec()).collect()
}

pub fn rust_walk(graph: &CausalGraph, from: u32, to: u32, known: u32, first: u32) -> Vec<Triple> {
    let mut steps = vec![];
    walk(graph.runs(), &(from..to), known as usize, first as usize, |step| {
        steps.push(match step {
            WalkStep::Retreat(runs) => [model::RETREAT, runs.start, runs.end],
            WalkStep::Advance(runs) => [model::ADVANCE, runs.start, runs.end],
            WalkStep::Apply(run) => [model::APPLY, run, run + 1],
        })
    });
    steps
}

/// What the Rust answers. A panic is an answer too; the graph is then as the panic left it.
pub fn rust_answer(graph: &mut CausalGraph, call: &Call) -> String {
    catch_unwind(AssertUnwindSafe(|| rust_call(graph, call))).unwrap_or_else(|panic| {
        let said = panic.downcast_ref::<String>().cloned().or(panic.downcast_ref::<&str>().map(|s| s.to_string()));
        format!("panic: {}", said.unwrap_or_default())
    })
}

fn rust_call(graph: &mut CausalGraph, call: &Call) -> String {
    let range = |range: std::ops::Range<u32>| format!("{}..{}", range.start, range.end);
    match call {
        New => {
            *graph = CausalGraph::new();
            "taken".into()
        }
        After(events, frontier) => {
            *graph = CausalGraph::after(*events, frontier);
            "taken".into()
        }
        Push(parents, len) => range(graph.push(parents, *len)),
        StartRunAt(at) => graph.start_run_at(*at).to_string(),
        Take => graph.take_changed_from().to_string(),
        IsEmpty => graph.is_empty().to_string(),
        Start(run) => graph.runs().start(*run).to_string(),
        Events(run) => range(graph.runs().events(*run)),
        Parents(run) => list(graph.runs().parents(*run)),
        Containing(event) => graph.runs().containing(*event).to_string(),
        Extends(parents) => graph.extends_last_event(parents).to_string(),
        Cut(from) => cut_text(&rust_cut(graph, *from)),
        Walk(from, to, known, first) => steps_text(&rust_walk(graph, *from, *to, *known, *first)),
        Graph => graph_text(&rust_starts(graph), &rust_parents(graph), graph.frontier(), &rust_marks(graph)),
    }
}

/// What document 01 says.
pub fn model_answer(graph: &mut Graph, call: &Call) -> String {
    model_call(graph, call).unwrap_or_else(|number| format!("refused {number}"))
}

fn model_call(graph: &mut Graph, call: &Call) -> Result<String, u32> {
    let range = |(first, end): (u32, u32)| format!("{first}..{end}");
    Ok(match call {
        New => {
            *graph = Graph::new();
            "taken".into()
        }
        After(events, frontier) => {
            *graph = Graph::new();
            *graph = Graph::after(*events, frontier)?;
            "taken".into()
        }
        Push(parents, len) => range(graph.push(parents, *len)?),
        StartRunAt(at) => graph.start_run_at(*at)?.to_string(),
        Take => graph.take_changed_from().to_string(),
        IsEmpty => (graph.runs() == 0).to_string(),
        Start(run) => graph.start(*run)?.to_string(),
        Events(run) => range(graph.events(*run)?),
        Parents(run) => list(graph.parents_of(*run)?),
        Containing(event) => match graph.containing(*event) {
            Side::Run(run) => run.to_string(),
            Side::Before => "before the graph".into(),
            Side::Unknown => "not yet known".into(),
        },
        Extends(parents) => graph.extends_last_event(parents).to_string(),
        Cut(from) => cut_text(&graph.cut(*from)?),
        Walk(from, to, known, first) => steps_text(&graph.walk(*from, *to, *known, *first)?.steps),
        Graph => graph_text(&graph.starts, &graph.parents, &graph.frontier, &graph.marks()),
    })
}
