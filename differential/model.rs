//! Document 01, with what 02 has changed, as plain, slow code, written from its sentences and not from the Rust.
//! Refusals are 01's numbers. Refusals 1, 11 and 13 to 16 are not here: this graph is never broken,
//! and lists are as long as need be.

use std::ops::Range;

/// Kind, first run, end run: a cut range or a step.
pub type Triple = [u32; 3];
pub const LINEAR: u32 = 0;
pub const CONCURRENT: u32 = 1;
pub const RETREAT: u32 = 0;
pub const ADVANCE: u32 = 1;
pub const APPLY: u32 = 2;
pub const OPEN: u32 = 3;

#[derive(Clone, Debug)]
pub struct Graph {
    /// One more than runs.
    pub starts: Vec<u32>,
    /// Each run's parent runs.
    pub parents: Vec<Vec<u32>>,
    pub frontier: Vec<u32>,
    pub seen: Vec<u32>,
    pub changed: u32,
}

/// Where an event lies (02, F-11).
pub enum Side {
    Run(u32),
    Before,
    Unknown,
}

pub struct Walked {
    pub rows: Vec<Vec<u32>>,
    pub steps: Vec<Triple>,
}

fn rising(list: &[u32]) -> bool {
    list.windows(2).all(|pair| pair[0] < pair[1])
}

/// Each run's ancestors, as a set, from the parents of each.
fn histories(parents: &[Vec<usize>]) -> Vec<Vec<bool>> {
    let mut history: Vec<Vec<bool>> = vec![];
    for list in parents {
        let mut set = vec![false; parents.len()];
        for &p in list {
            set[p] = true;
            for earlier in 0..p {
                set[earlier] |= history[p][earlier];
            }
        }
        history.push(set);
    }
    history
}

impl Graph {
    pub fn new() -> Self {
        Graph { starts: vec![0], parents: vec![], frontier: vec![], seen: vec![], changed: 0 }
    }

    /// Refused, the graph is `new`'s.
    pub fn after(events: u32, frontier: &[u32]) -> Result<Self, u32> {
        if !rising(frontier) {
            return Err(3);
        }
        if frontier.iter().any(|&event| event >= events) {
            return Err(4);
        }
        if frontier.len() > 512 {
            return Err(8);
        }
        Ok(Graph { starts: vec![events], frontier: frontier.to_vec(), ..Graph::new() })
    }

    pub fn runs(&self) -> usize {
        self.parents.len()
    }

    pub fn first_held(&self) -> u32 {
        self.starts[0]
    }

    pub fn len(&self) -> u32 {
        self.starts[self.runs()]
    }

    pub fn entries(&self) -> usize {
        self.parents.iter().map(|parents| parents.len()).sum()
    }

    pub fn marked(&self, run: usize) -> bool {
        self.seen[run..].iter().all(|&seen| seen >= self.starts[run])
    }

    pub fn marks(&self) -> Vec<u32> {
        (0..self.runs()).filter(|&run| self.marked(run)).map(|run| run as u32).collect()
    }

    pub fn extends_last_event(&self, parents: &[u32]) -> bool {
        self.runs() > 0 && parents == [self.len() - 1]
    }

    fn seen_after(&self, run: usize) -> u32 {
        if self.seen[run] == self.starts[run] { self.starts[run + 1] } else { self.seen[run] }
    }

    fn split(&mut self, run: usize, at: u32) {
        self.changed = self.changed.min(run as u32);
        for parent in self.parents.iter_mut().flatten() {
            if *parent >= run as u32 {
                *parent += 1;
            }
        }
        self.parents.insert(run + 1, vec![run as u32]);
        self.seen.insert(run + 1, if self.seen[run] == self.starts[run] { at } else { self.seen[run] });
        self.starts.insert(run + 1, at);
    }

    /// The first new event and the end.
    pub fn push(&mut self, parents: &[u32], len: u32) -> Result<(u32, u32), u32> {
        let start = self.len();
        if len == 0 {
            return Err(2);
        }
        if !rising(parents) {
            return Err(3);
        }
        if parents.iter().any(|&parent| parent >= start) {
            return Err(4);
        }
        let end = start.checked_add(len).ok_or(5u32)?;
        if self.extends_last_event(parents) {
            let last = self.runs() - 1;
            self.changed = self.changed.min(last as u32);
            self.starts[last + 1] = end;
            self.frontier.retain(|&event| event != start - 1);
            self.frontier.push(end - 1);
            return Ok((start, end));
        }

        let held: Vec<u32> = parents.iter().copied().filter(|&parent| parent >= self.first_held()).collect();
        // The starts hold the graph's end too.
        let splits = held.iter().filter(|&&parent| self.starts.binary_search(&(parent + 1)).is_err()).count();
        let staying: Vec<u32> = self.frontier.iter().copied().filter(|event| !parents.contains(event)).collect();
        if self.runs() + splits + 1 > 512 {
            return Err(6);
        }
        if self.entries() + splits + held.len() > 2048 {
            return Err(7);
        }
        if staying.len() + 1 > 512 {
            return Err(8);
        }

        let marked_starts: Vec<u32> = self.marks().iter().map(|&run| self.starts[run as usize]).collect();
        for &parent in &held {
            if let Err(place) = self.starts.binary_search(&(parent + 1)) {
                self.split(place - 1, parent + 1);
            }
        }
        let ending_in = |&parent: &u32| self.starts.binary_search(&(parent + 1)).unwrap() - 1;
        let parent_runs: Vec<usize> = held.iter().map(ending_in).collect();
        let seen = if parents == self.frontier {
            start
        } else {
            parent_runs.iter().map(|&run| self.seen_after(run)).max().unwrap_or(self.first_held())
        };
        self.changed = self.changed.min(self.runs() as u32);
        self.parents.push(parent_runs.iter().map(|&run| run as u32).collect());
        self.starts.push(end);
        self.seen.push(seen);
        for run in 0..self.runs() {
            if marked_starts.contains(&self.starts[run]) && !self.marked(run) {
                self.changed = self.changed.min(run as u32);
            }
        }
        self.frontier = staying;
        self.frontier.push(end - 1);
        Ok((start, end))
    }

    pub fn start_run_at(&mut self, at: u32) -> Result<bool, u32> {
        if at <= self.first_held() || at >= self.len() {
            return Ok(false);
        }
        match self.starts.binary_search(&at) {
            Ok(run) => Ok(!self.marked(run)),
            Err(place) => {
                let run = place - 1;
                if self.marked(run) && (run + 1 == self.runs() || self.marked(run + 1)) {
                    return Ok(false);
                }
                if self.runs() + 1 > 512 {
                    return Err(6);
                }
                if self.entries() + 1 > 2048 {
                    return Err(7);
                }
                self.split(run, at);
                Ok(true)
            }
        }
    }

    pub fn take_changed_from(&mut self) -> u32 {
        let runs = self.runs() as u32;
        std::mem::replace(&mut self.changed, runs)
    }

    pub fn start(&self, run: u32) -> Result<u32, u32> {
        self.starts.get(run as usize).copied().ok_or(9)
    }

    pub fn events(&self, run: u32) -> Result<(u32, u32), u32> {
        if (run as usize) < self.runs() { Ok((self.starts[run as usize], self.starts[run as usize + 1])) } else { Err(9) }
    }

    pub fn parents_of(&self, run: u32) -> Result<&[u32], u32> {
        self.parents.get(run as usize).map(|parents| &parents[..]).ok_or(9)
    }

    pub fn containing(&self, event: u32) -> Side {
        match (0..self.runs()).find(|&run| self.starts[run] <= event && event < self.starts[run + 1]) {
            Some(run) => Side::Run(run as u32),
            None if event < self.first_held() => Side::Before,
            None => Side::Unknown,
        }
    }

    /// The starts of the runs such that each event from that start on has all held events before that start as ancestors (02, F-6). By runs;
    /// where few events are held, by events too. Panics if the two differ.
    pub fn archive_points(&self) -> Vec<u32> {
        let points = self.points_by_runs();
        if self.len() - self.first_held() <= 64 {
            let by_events = self.points_by_events();
            assert!(by_events == points, "archive points by events {by_events:?}, by runs {points:?}, of {self:?}");
        }
        points
    }

    /// The held parents of each held event, counted from the first held one: of a run's first event the last ones of its parent runs, of any other the
    /// event before it.
    fn event_parents(&self) -> Vec<Vec<usize>> {
        let from_first = |event: u32| (event - self.first_held()) as usize;
        let mut parents: Vec<Vec<usize>> = vec![];
        for run in 0..self.runs() {
            parents.push(self.parents[run].iter().map(|&parent| from_first(self.starts[parent as usize + 1] - 1)).collect());
            parents.extend((self.starts[run] + 1..self.starts[run + 1]).map(|event| vec![from_first(event - 1)]));
        }
        parents
    }

    /// Each held event's ancestors, from parent to parent.
    fn event_ancestors(&self) -> Vec<Vec<bool>> {
        let parents = self.event_parents();
        let mut ancestors = vec![vec![false; parents.len()]; parents.len()];
        for event in 0..parents.len() {
            let mut todo = parents[event].clone();
            while let Some(parent) = todo.pop() {
                if !ancestors[event][parent] {
                    ancestors[event][parent] = true;
                    todo.extend(&parents[parent]);
                }
            }
        }
        ancestors
    }

    /// As the sentence has it: each event's ancestors, and then every event from a start on.
    fn points_by_events(&self) -> Vec<u32> {
        let (first, ancestors) = (self.first_held(), self.event_ancestors());
        let held = ancestors.len();
        let is_point = |start: usize| (start..held).all(|event| (0..start).all(|before| ancestors[event][before]));
        self.starts[..self.runs()].iter().copied().filter(|&start| is_point((start - first) as usize)).collect()
    }

    /// Each run from it on has each run before it as an ancestor.
    fn points_by_runs(&self) -> Vec<u32> {
        let parents: Vec<Vec<usize>> = self.parents.iter().map(|list| list.iter().map(|&parent| parent as usize).collect()).collect();
        let history = histories(&parents);
        let is_point = |run: usize| history[run..].iter().all(|set| set[..run].iter().all(|&seen| seen));
        (0..self.runs()).filter(|&run| is_point(run)).map(|run| self.starts[run]).collect()
    }

    /// The parents to push so that the new event has seen exactly the events of some ranges (02, F-3), each range its first event and its end; or 3, 4
    /// or 17. By the events at the ends of ranges and runs; where few events are held, by each event too; where very few, by each list of them.
    /// Panics if two of these differ.
    pub fn wanted_parents(&self, words: &[u32]) -> Result<Vec<u32>, u32> {
        if words.len() % 2 == 1 {
            return Err(3);
        }
        let ranges: Vec<Range<u32>> = words.chunks(2).map(|pair| pair[0]..pair[1]).collect();
        let rise = ranges.windows(2).all(|two| two[0].start < two[1].start && two[0].end < two[1].start);
        if !rise || ranges.iter().any(|range| range.is_empty()) {
            return Err(3);
        }
        if ranges.iter().any(|range| range.start < self.first_held() || range.end > self.len()) {
            return Err(4);
        }
        let found = self.wanted_by_ends(&ranges);
        let held = self.len() - self.first_held();
        let same = |how: &str, other: Option<Vec<u32>>| assert!(other == found, "wanted parents by {how} {other:?}, by ends {found:?}, for {words:?} of {self:?}");
        if held <= 4096 {
            same("events", self.wanted_by_events(&ranges));
        }
        if held <= 10 {
            same("lists", self.wanted_by_lists(&ranges));
        }
        found.ok_or(17)
    }

    /// As the sentence has it: of all lists of held events, those whose events, their members and the ancestors of these, are the marked ones; of
    /// these lists the one in which none is an ancestor of another. None if no list has these events; panics if one has and not just one is such.
    fn wanted_by_lists(&self, ranges: &[Range<u32>]) -> Option<Vec<u32>> {
        let (first, ancestors) = (self.first_held(), self.event_ancestors());
        let bits = |set: &[bool]| (0..set.len()).filter(|&event| set[event]).fold(0u32, |bits, event| bits | 1 << event);
        let before: Vec<u32> = ancestors.iter().map(|set| bits(set)).collect();
        let members = |list: u32| (0..before.len()).filter(move |&event| list >> event & 1 == 1);
        let seen = |list: u32| members(list).fold(0, |seen, event| seen | before[event]);
        let marked = ranges.iter().cloned().flatten().fold(0u32, |bits, event| bits | 1 << (event - first));
        let lists: Vec<u32> = (0..1u32 << before.len()).filter(|&list| list | seen(list) == marked).collect();
        let apart: Vec<u32> = lists.iter().copied().filter(|&list| list & seen(list) == 0).collect();
        assert!(apart.len() == (!lists.is_empty()) as usize, "lists that give {ranges:?}: {lists:?}, without an ancestor pair: {apart:?}, in {self:?}");
        apart.first().map(|&list| members(list).map(|event| first + event as u32).collect())
    }

    /// Each marked event's parents must be marked; then the marked events that are no marked one's parent.
    fn wanted_by_events(&self, ranges: &[Range<u32>]) -> Option<Vec<u32>> {
        let (first, parents) = (self.first_held(), self.event_parents());
        let mut marked = vec![false; parents.len()];
        ranges.iter().for_each(|range| marked[(range.start - first) as usize..(range.end - first) as usize].fill(true));
        let mut is_parent = vec![false; parents.len()];
        for event in (0..parents.len()).filter(|&event| marked[event]) {
            for &parent in &parents[event] {
                if !marked[parent] {
                    return None;
                }
                is_parent[parent] = true;
            }
        }
        Some((0..parents.len()).filter(|&event| marked[event] && !is_parent[event]).map(|event| first + event as u32).collect())
    }

    /// The same, of those events alone by which it can fail or that can be answered: a range's first and last, and a run's.
    fn wanted_by_ends(&self, ranges: &[Range<u32>]) -> Option<Vec<u32>> {
        let marked = |event: u32| {
            let begun = ranges.partition_point(|range| range.start <= event);
            begun > 0 && event < ranges[begun - 1].end
        };
        // A range that begins inside a run has its first event's parent just before it, which no range before it has: they do not touch.
        if ranges.iter().any(|range| self.starts.binary_search(&range.start).is_err()) {
            return None;
        }
        let mut parents: Vec<u32> = vec![];
        for run in (0..self.runs()).filter(|&run| marked(self.starts[run])) {
            parents.extend(self.parents[run].iter().map(|&parent| self.starts[parent as usize + 1] - 1));
        }
        if !parents.iter().all(|&parent| marked(parent)) {
            return None;
        }
        parents.sort();
        let range_ends = ranges.iter().map(|range| range.end - 1);
        let run_ends = self.starts[1..].iter().map(|end| end - 1).filter(|&event| marked(event));
        let mut found: Vec<u32> = range_ends.chain(run_ends).filter(|event| parents.binary_search(event).is_err()).collect();
        found.sort();
        found.dedup();
        Some(found)
    }

    pub fn cut(&self, from: u32) -> Result<Vec<Triple>, u32> {
        let runs = self.runs() as u32;
        if runs == 0 {
            return Ok(vec![]);
        }
        if from >= runs {
            return Err(9);
        }
        if !self.marked(from as usize) {
            return Err(10);
        }
        let marks: Vec<u32> = self.marks().into_iter().filter(|&run| run >= from).collect();
        let mut ranges: Vec<Triple> = vec![];
        for (i, &first) in marks.iter().enumerate() {
            let end = marks.get(i + 1).copied().unwrap_or(runs);
            if end > first + 1 {
                ranges.push([CONCURRENT, first, end]);
            } else if ranges.last().is_some_and(|range| range[0] == LINEAR) {
                ranges.last_mut().unwrap()[2] = end;
            } else {
                ranges.push([LINEAR, first, end]);
            }
        }
        Ok(ranges)
    }

    pub fn walk(&self, from: u32, to: u32, known: u32, first: u32) -> Result<Walked, u32> {
        if from > to || to as usize > self.runs() {
            return Err(9);
        }
        if known > to - from {
            return Err(12);
        }
        let (count, known) = ((to - from) as usize, known as usize);
        let first = (first as usize).max(known);
        let events = |run: usize| (self.starts[from as usize + run] - self.starts[from as usize], self.starts[from as usize + run + 1] - self.starts[from as usize]);
        let parents: Vec<Vec<usize>> = (0..count)
            .map(|run| self.parents[from as usize + run].iter().filter(|&&p| p >= from).map(|&p| (p - from) as usize).collect())
            .collect();

        let history = histories(&parents);
        let (mut chains, mut rows): (Vec<Vec<usize>>, Vec<Vec<u32>>) = (vec![], vec![]);
        for run in 0..count {
            let joined = chains.iter().position(|chain| chain.iter().all(|&member| history[run][member])).unwrap_or_else(|| {
                chains.push(vec![]);
                chains.len() - 1
            });
            rows.push(chains.iter().map(|chain| chain.iter().filter(|&&member| history[run][member]).count() as u32).collect());
            chains[joined].push(run);
        }

        let all = self.starts[to as usize] - self.starts[from as usize];
        let per_bit = all.div_ceil(127).max(1);
        let mut cover = vec![[false; 127]; count];
        for run in (0..count).rev() {
            for bit in events(run).0 / per_bit..events(run).1.div_ceil(per_bit) {
                cover[run][bit as usize] = true;
            }
            for child in run + 1..count {
                if parents[child].contains(&run) {
                    for bit in 0..127 {
                        cover[run][bit] |= cover[child][bit];
                    }
                }
            }
        }
        let weight: Vec<usize> = cover.iter().map(|bits| bits.iter().filter(|&&bit| bit).count()).collect();

        let mut visited: Vec<bool> = (0..count).map(|run| run < known).collect();
        let mut current = visited.clone();
        let mut last = None;
        let (mut ready, mut steps): (Vec<usize>, Vec<Triple>) = (vec![], vec![]);
        loop {
            let rest_open = (known..first.min(count)).all(|run| visited[run]);
            for run in known..count {
                let is_ready = !visited[run] && parents[run].iter().all(|&p| visited[p]) && (run < first || rest_open);
                if is_ready && !ready.contains(&run) {
                    ready.push(run);
                }
            }
            let mut best: Option<(u64, usize, usize)> = None;
            for at in (ready.len().saturating_sub(64)..ready.len()).rev() {
                let run = ready[at];
                let cost = if last.is_some_and(|last| parents[run] == [last]) {
                    0
                } else if best.is_some_and(|best| best.0 == 0) {
                    continue;
                } else {
                    (0..count).filter(|&r| current[r] != history[run][r]).map(|r| (events(r).1 - events(r).0) as u64).sum()
                };
                if best.is_none_or(|best| (cost, weight[run]) < (best.0, best.1)) {
                    best = Some((cost, weight[run], at));
                }
            }
            let Some((_, _, at)) = best else { break };
            let run = ready.remove(at);
            for (kind, leaving, entering) in [(RETREAT, &current, &history[run]), (ADVANCE, &history[run], &current)] {
                for chain in &chains {
                    let mut open = false;
                    for &member in chain.iter().filter(|&&member| leaving[member] && !entering[member]) {
                        let member = from + member as u32;
                        match steps.last_mut() {
                            Some(step) if open && step[2] == member => step[2] = member + 1,
                            _ => steps.push([kind, member, member + 1]),
                        }
                        open = true;
                    }
                }
            }
            steps.push([APPLY, from + run as u32, from + run as u32 + 1]);
            current = history[run].clone();
            current[run] = true;
            visited[run] = true;
            last = Some(run);
        }
        Ok(Walked { rows, steps })
    }

    /// The events in the steps' retreats and advances.
    pub fn moved(&self, steps: &[Triple]) -> u64 {
        let events = |step: &Triple| (self.starts[step[2] as usize] - self.starts[step[1] as usize]) as u64;
        steps.iter().filter(|step| step[0] == RETREAT || step[0] == ADVANCE).map(events).sum()
    }
}
