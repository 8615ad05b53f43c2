//! Random small scripts of calls with the Rust's answers, one JSON object a line.
//! sample SEED COUNT   or   sample c1
//! Refused input is not given to the Rust; its line has 01's refusal number.
//! `seen` and `rows` are from the plain model of 01 (the Rust keeps them private); all else is the Rust's.
#[allow(dead_code)]
mod model;
use model::{Triple, ADVANCE, APPLY, CONCURRENT, LINEAR, OPEN, RETREAT};
use strider_graph::{walk, CausalGraph, HistoryRange, WalkStep};

struct Random(u64);
impl Random {
    fn below(&mut self, bound: u32) -> u32 {
        self.0 = self.0.wrapping_add(0x9E3779B97F4A7C15);
        let mut z = self.0;
        z = (z ^ (z >> 30)).wrapping_mul(0xBF58476D1CE4E5B9);
        z = (z ^ (z >> 27)).wrapping_mul(0x94D049BB133111EB);
        (((z ^ (z >> 31)) >> 33) % bound.max(1) as u64) as u32
    }
    fn one_in(&mut self, n: u32) -> bool { self.below(n) == 0 }
}

fn rising(list: &[u32]) -> bool { list.windows(2).all(|p| p[0] < p[1]) }

/// 01's tests of a push that a small graph can meet, in 01's order; 0 if none is met.
fn push_refusal(now: u32, parents: &[u32], len: u32) -> u32 {
    if len == 0 { 2 } else if !rising(parents) { 3 } else if parents.iter().any(|&p| p >= now) { 4 } else if now.checked_add(len).is_none() { 5 } else { 0 }
}
fn after_refusal(events: u32, frontier: &[u32]) -> u32 {
    if !rising(frontier) { 3 } else if frontier.iter().any(|&e| e >= events) { 4 } else { 0 }
}

/// The plain log: parents of each held event, for the plain set.
struct Log { first: u32, parents: Vec<Vec<u32>> }
impl Log {
    fn push(&mut self, parents: &[u32], len: u32) {
        for i in 0..len {
            let own = if i == 0 { parents.to_vec() } else { vec![self.first + self.parents.len() as u32 - 1] };
            self.parents.push(own);
        }
    }
    fn ancestors(&self, event: u32) -> Vec<bool> {
        let mut set = vec![false; self.parents.len()];
        let mut todo = self.parents[(event - self.first) as usize].clone();
        while let Some(e) = todo.pop() {
            if e >= self.first && !set[(e - self.first) as usize] {
                set[(e - self.first) as usize] = true;
                todo.extend(&self.parents[(e - self.first) as usize]);
            }
        }
        set
    }
    /// Whether every Apply finds exactly its run's ancestors among the events `low..high`, and each run is applied as often as `applied` says.
    fn right(&self, starts: &[u32], steps: &[Triple], mut set: Vec<bool>, low: u32, high: u32, applied: &mut Vec<u32>) -> bool {
        for &[kind, a, b] in steps {
            let (from, to) = ((starts[a as usize] - self.first) as usize, (starts[b as usize] - self.first) as usize);
            match kind {
                OPEN => set = (0..self.parents.len()).map(|e| e < from).collect(),
                RETREAT => { if set[from..to].iter().any(|&e| !e) { return false } set[from..to].fill(false) }
                ADVANCE => { if set[from..to].iter().any(|&e| e) { return false } set[from..to].fill(true) }
                _ => {
                    let want = self.ancestors(starts[a as usize]);
                    let inside = |e: usize| e + self.first as usize >= low as usize && e + (self.first as usize) < high as usize;
                    if (0..set.len()).any(|e| set[e] != (want[e] && inside(e))) { return false }
                    set[from..to].fill(true);
                    applied[a as usize] += 1;
                }
            }
        }
        true
    }
}

fn triples(list: &[Triple]) -> String {
    format!("[{}]", list.iter().map(|t| format!("[{},{},{}]", t[0], t[1], t[2])).collect::<Vec<_>>().join(","))
}
fn json<T: std::fmt::Debug>(list: &T) -> String { format!("{list:?}").replace(", ", ",") }

fn cut(g: &CausalGraph) -> Vec<Triple> {
    g.split_at_critical_versions().iter().map(|r| match r {
        HistoryRange::Linear(r) => [LINEAR, r.start, r.end],
        HistoryRange::Concurrent(r) => [CONCURRENT, r.start, r.end],
    }).collect()
}
fn steps(g: &CausalGraph, from: u32, to: u32, known: u32, first: u32) -> Vec<Triple> {
    let mut list = vec![];
    walk(g.runs(), &(from..to), known as usize, first as usize, |s| list.push(match s {
        WalkStep::Retreat(r) => [RETREAT, r.start, r.end],
        WalkStep::Advance(r) => [ADVANCE, r.start, r.end],
        WalkStep::Apply(r) => [APPLY, r, r + 1],
    }));
    list
}
fn replay(g: &CausalGraph) -> Vec<Triple> {
    let mut list = vec![];
    for [kind, from, to] in cut(g) {
        list.push([OPEN, from, to]);
        if kind == LINEAR { list.extend((from..to).map(|r| [APPLY, r, r + 1])) } else { list.extend(steps(g, from, to, 0, 0)) }
    }
    list
}
fn moved(g: &CausalGraph, list: &[Triple]) -> u64 {
    list.iter().filter(|s| s[0] <= ADVANCE).map(|s| (g.runs().start(s[2]) - g.runs().start(s[1])) as u64).sum()
}

enum Call { New, After(u32, Vec<u32>), Push(Vec<u32>, u32), Start(u32), Take }

struct Script { g: CausalGraph, m: model::Graph, log: Log, calls: Vec<String> }
impl Script {
    fn new() -> Self { Script { g: CausalGraph::new(), m: model::Graph::new(), log: Log { first: 0, parents: vec![] }, calls: vec![] } }
    fn call(&mut self, call: Call) {
        let line = match call {
            Call::New => "{\"call\":\"new\"}".to_string(),
            Call::After(events, frontier) => {
                let refused = after_refusal(events, &frontier);
                assert_eq!(refused, model::Graph::after(events, &frontier).err().unwrap_or(0));
                if refused == 0 {
                    self.g = CausalGraph::after(events, &frontier);
                    self.m = model::Graph::after(events, &frontier).unwrap();
                    self.log.first = events;
                }
                format!("{{\"call\":\"after\",\"events\":{events},\"frontier\":{},\"refused\":{refused}}}", json(&frontier))
            }
            Call::Push(parents, len) => {
                let refused = push_refusal(self.g.len(), &parents, len);
                let told = self.m.push(&parents, len);
                assert_eq!(refused, told.err().unwrap_or(0));
                let range = if refused == 0 { self.g.push(&parents, len) } else { 0..0 };
                if refused == 0 { assert_eq!(told, Ok((range.start, range.end))); self.log.push(&parents, len); }
                format!("{{\"call\":\"push\",\"parents\":{},\"len\":{len},\"refused\":{refused},\"first\":{},\"end\":{}}}", json(&parents), range.start, range.end)
            }
            Call::Start(at) => {
                let told = self.g.start_run_at(at);
                assert_eq!(Ok(told), self.m.start_run_at(at));
                format!("{{\"call\":\"start_run_at\",\"at\":{at},\"answer\":{told}}}")
            }
            Call::Take => {
                let value = self.g.take_changed_from();
                assert_eq!(value, self.m.take_changed_from());
                format!("{{\"call\":\"take_changed_from\",\"answer\":{value}}}")
            }
        };
        self.calls.push(line);
    }

    fn print(mut self, id: &str, r: &mut Random) {
        let g = &mut self.g;
        let changed = g.take_changed_from();
        let runs = g.runs().len();
        let starts: Vec<u32> = (0..=runs).map(|run| g.runs().start(run)).collect();
        let parents: Vec<Vec<u32>> = (0..runs).map(|run| g.runs().parents(run).to_vec()).collect();
        let cut = cut(g);
        let marks: Vec<u32> = cut.iter().flat_map(|c| if c[0] == LINEAR { c[1]..c[2] } else { c[1]..c[1] + 1 }).collect();
        let full = replay(g);
        assert_eq!((&starts, &parents, &marks, changed), (&self.m.starts, &self.m.parents, &self.m.marks(), self.m.changed));
        assert_eq!((g.frontier(), &cut), (&self.m.frontier[..], &self.m.cut(0).unwrap()));
        let (a, b) = (r.below(runs + 1), r.below(runs + 1));
        let (from, to) = (a.min(b), a.max(b));
        let (known, first) = (r.below(to - from + 1), r.below(to - from + 2));
        let walked = steps(g, from, to, known, first);
        let plain = self.m.walk(from, to, known, first).unwrap_or_else(|_| unreachable!());
        assert_eq!(walked, plain.steps);

        // Demand 3's plain set, on the full replay and on the walk.
        let held = self.log.parents.len();
        let mut applied = vec![0; runs as usize];
        let mut good = self.log.right(&starts, &full, vec![false; held], 0, u32::MAX, &mut applied) && applied.iter().all(|&n| n == 1);
        let (low, high) = (starts[from as usize], starts[to as usize]);
        let known_end = starts[(from + known) as usize];
        let set = (0..held).map(|e| { let e = e as u32 + self.log.first; e >= low && e < known_end }).collect();
        let mut applied = vec![0; runs as usize];
        good &= self.log.right(&starts, &walked, set, low, high, &mut applied);
        good &= (0..runs).all(|run| applied[run as usize] == (run >= from + known && run < to) as u32);
        assert!(good, "the plain set");

        println!(
            "{{\"id\":{id},\"calls\":[{}],\"first_held\":{},\"len\":{},\"empty\":{},\"starts\":{},\"parents\":{},\"frontier\":{},\"seen\":{},\"marks\":{},\"changed\":{changed},\"cut\":{},\"replay\":{},\"moved\":{},\"walk\":{{\"from\":{from},\"to\":{to},\"known\":{known},\"first\":{first},\"rows\":{},\"steps\":{},\"moved\":{}}}}}",
            self.calls.join(","), g.first_held_event(), g.len(), runs == 0, json(&starts), json(&parents), json(&g.frontier()), json(&self.m.seen), json(&marks),
            triples(&cut), triples(&full), moved(g, &full), json(&plain.rows), triples(&walked), moved(g, &walked)
        );
    }
}

fn random_list(r: &mut Random, below: u32) -> Vec<u32> {
    let mut list: Vec<u32> = (0..r.below(4)).filter(|_| below > 0).map(|_| r.below(below)).collect();
    list.sort();
    list.dedup();
    list
}

fn faulty(r: &mut Random, list: &mut Vec<u32>, now: u32) {
    match r.below(3) {
        0 => list.push(now + if r.one_in(2) { 0 } else { r.below(4) }),
        1 if !list.is_empty() => { let again = list[r.below(list.len() as u32) as usize]; list.push(again) }
        _ => { if list.len() < 2 { list.push(now + 1); list.push(now) } list.reverse() }
    }
}

fn main() {
    let args: Vec<String> = std::env::args().skip(1).collect();
    if args.first().is_some_and(|a| a == "c1") {
        let mut s = Script::new();
        s.call(Call::New);
        for parents in [&[][..], &[0], &[0], &[1, 2], &[1, 2]] { s.call(Call::Push(parents.to_vec(), 1)) }
        for &[kind, a, b] in &replay(&s.g) {
            if kind == APPLY { println!("apply {a}") } else { println!("{} {a} {b}", ["retreat", "advance", "", "open"][kind as usize]) }
        }
        println!("moved {}", moved(&s.g, &replay(&s.g)));
        return;
    }
    let seed: u64 = args.first().map_or(1, |a| a.parse().expect("a seed"));
    let count: u64 = args.get(1).map_or(10, |a| a.parse().expect("a count"));
    let mut r = Random(seed.wrapping_mul(0xD1342543DE82EF95).wrapping_add(1));
    for id in 0..count {
        let mut s = Script::new();
        if r.one_in(2) {
            s.call(Call::New);
        } else {
            let events = r.below(6);
            let mut frontier = random_list(&mut r, events);
            if r.one_in(8) { faulty(&mut r, &mut frontier, events) }
            s.call(Call::After(events, frontier));
        }
        for _ in 0..4 + r.below(7) {
            let now = s.g.len();
            match r.below(10) {
                0 | 1 => { let at = r.below(now + 2); s.call(Call::Start(at)) }
                2 => s.call(Call::Take),
                _ => {
                    let mut parents = match r.below(6) {
                        0 => vec![],
                        1 => s.g.frontier().to_vec(),
                        2 => s.g.frontier().iter().copied().filter(|_| r.one_in(2)).collect(),
                        3 if now > 0 => vec![r.below(now)],
                        _ => random_list(&mut r, now),
                    };
                    let mut len = 1 + r.below(4);
                    if r.one_in(12) { faulty(&mut r, &mut parents, now) }
                    if r.one_in(25) { len = 0 }
                    if r.one_in(25) && now > 0 { len = u32::MAX - now + 1 + r.below(now) }
                    s.call(Call::Push(parents, len));
                }
            }
        }
        s.print(&id.to_string(), &mut r);
    }
}
