//! The graph record of 01 as the trace program's operation 14 takes it: five counts and six arrays.
//! The Rust has no such record, so all here is from 01's sentences.

use crate::model::Graph;

pub const LIMIT: &str = "a count passes its limit";
pub const STARTS: &str = "starts are not rising";
pub const GROUPS: &str = "the parent groups do not cover the entries in run order";
pub const PARENTS: &str = "a run's parents are not strictly rising and below it";
pub const FRONTIER: &str = "the frontier is not rising and below `len` (its last is `len`-1 where there are runs)";
pub const SEEN: &str = "a seen length is below first held or above its run's start";
pub const MARKS: &str = "the marks are not the set below";
pub const CHANGED: &str = "`changed_from` passes the run count";
pub const PADDING: &str = "a place past a count is not 0";

/// Places in each array, in the order of operation 14.
pub const PLACES: [usize; 6] = [513, 513, 2048, 512, 512, 512];
/// Operation 14 and all its words.
pub const WORDS: usize = 4616;

#[derive(Clone)]
pub struct Record {
    pub run_count: u32,
    pub entry_count: u32,
    pub frontier_count: u32,
    pub mark_count: u32,
    pub changed: u32,
    pub starts: Vec<u32>,
    pub parent_starts: Vec<u32>,
    pub parents: Vec<u32>,
    pub frontier: Vec<u32>,
    pub seen: Vec<u32>,
    pub marks: Vec<u32>,
}

fn rising(list: &[u32]) -> bool {
    list.windows(2).all(|pair| pair[0] < pair[1])
}

impl Record {
    /// The record that holds a graph within the limits.
    pub fn of(graph: &Graph) -> Self {
        let pad = |list: &[u32], places: usize| [list, &vec![0; places - list.len()]].concat();
        let mut ends = vec![0];
        for parents in &graph.parents {
            ends.push(ends[ends.len() - 1] + parents.len() as u32);
        }
        let marks = graph.marks();
        Record {
            run_count: graph.runs() as u32,
            entry_count: graph.entries() as u32,
            frontier_count: graph.frontier.len() as u32,
            mark_count: marks.len() as u32,
            changed: graph.changed,
            starts: pad(&graph.starts, PLACES[0]),
            parent_starts: pad(&ends, PLACES[1]),
            parents: pad(&graph.parents.concat(), PLACES[2]),
            frontier: pad(&graph.frontier, PLACES[3]),
            seen: pad(&graph.seen, PLACES[4]),
            marks: pad(&marks, PLACES[5]),
        }
    }

    /// From operation 14's words, the operation itself included.
    pub fn read(call: &[u32]) -> Self {
        let mut at = 6;
        let mut array = |nth: usize| {
            at += PLACES[nth];
            call[at - PLACES[nth]..at].to_vec()
        };
        Record {
            run_count: call[1],
            entry_count: call[2],
            frontier_count: call[3],
            mark_count: call[4],
            changed: call[5],
            starts: array(0),
            parent_starts: array(1),
            parents: array(2),
            frontier: array(3),
            seen: array(4),
            marks: array(5),
        }
    }

    /// Operation 14's words.
    pub fn call(&self) -> Vec<u32> {
        let counts = [14, self.run_count, self.entry_count, self.frontier_count, self.mark_count, self.changed];
        [&counts[..], &self.starts, &self.parent_starts, &self.parents, &self.frontier, &self.seen, &self.marks].concat()
    }

    /// The clauses of 01's sentence by which the record is broken. Past a limit nothing else is looked at.
    pub fn faults(&self) -> Vec<&'static str> {
        if self.run_count > 512 || self.entry_count > 2048 || self.frontier_count > 512 || self.mark_count > 512 {
            return vec![LIMIT];
        }
        let (runs, entries, tips, marks) = (self.run_count as usize, self.entry_count as usize, self.frontier_count as usize, self.mark_count as usize);
        let (starts, ends, frontier, seen) = (&self.starts[..=runs], &self.parent_starts[..=runs], &self.frontier[..tips], &self.seen[..runs]);
        let len = starts[runs];
        let group = |run: usize| self.parents.get(ends[run] as usize..ends[run + 1] as usize).unwrap_or(&[]);
        let set: Vec<u32> = (0..runs).filter(|&run| seen[run..].iter().all(|&seen| seen >= starts[run])).map(|run| run as u32).collect();
        let last_fits = runs == 0 || frontier.last().is_some_and(|&event| event as u64 + 1 == len as u64);
        let zeros = |list: &[u32], from: usize| list[from..].iter().all(|&word| word == 0);
        let clauses = [
            (STARTS, rising(starts)),
            (GROUPS, ends[0] == 0 && ends.windows(2).all(|pair| pair[0] <= pair[1]) && ends[runs] as usize == entries),
            (PARENTS, (0..runs).all(|run| rising(group(run)) && group(run).iter().all(|&parent| (parent as usize) < run))),
            (FRONTIER, rising(frontier) && frontier.iter().all(|&event| event < len) && last_fits),
            (SEEN, (0..runs).all(|run| starts[0] <= seen[run] && seen[run] <= starts[run])),
            (MARKS, self.marks[..marks] == set),
            (CHANGED, self.changed as usize <= runs),
            (
                PADDING,
                zeros(&self.starts, runs + 1)
                    && zeros(&self.parent_starts, runs + 1)
                    && zeros(&self.parents, entries)
                    && zeros(&self.frontier, tips)
                    && zeros(&self.seen, runs)
                    && zeros(&self.marks, marks),
            ),
        ];
        clauses.iter().filter(|(_, holds)| !holds).map(|(name, _)| *name).collect()
    }

    /// The graph of a record that is not broken.
    pub fn graph(&self) -> Graph {
        let runs = self.run_count as usize;
        let group = |run: usize| self.parents[self.parent_starts[run] as usize..self.parent_starts[run + 1] as usize].to_vec();
        Graph {
            starts: self.starts[..=runs].to_vec(),
            parents: (0..runs).map(group).collect(),
            frontier: self.frontier[..self.frontier_count as usize].to_vec(),
            seen: self.seen[..runs].to_vec(),
            changed: self.changed,
        }
    }
}
