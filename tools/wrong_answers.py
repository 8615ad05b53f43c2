#!/usr/bin/env python3
"""Wrong answers of the public calls: each edit is made in a copy of the tree, and `rt check` of the edited crate has to refuse it.

tools/wrong_answers.py              all
tools/wrong_answers.py book 3 7     only these, by crate or by number
tools/wrong_answers.py --texts ..   only tells whether each edit's old text stands, once or at its place; nothing is proved
Ends with status 1 if one is not refused, or is refused only because its text or a proof does not fit the code's names.
RT=command is run in place of rt. LOGS=folder keeps what was said. JOBS=n tries n at a time (2).
"""
import concurrent.futures, os, queue, re, shutil, subprocess, sys, tempfile, time

TOP = os.path.dirname(os.path.dirname(os.path.abspath(__file__)))
RT = os.environ.get("RT", "rt")
LOGS = os.environ.get("LOGS")
JOBS = int(os.environ.get("JOBS", "2"))

# By the crate that is edited, which may be one below the call's: call, wrong answer, file, old text, new text, and which of its places
# where the old text stands more than once. Or the name of an edit: one of the crate's must-fail edits, which the gate tries too, or one
# beside this file, in wrong_answers/CRATE/. Or a list of edits, file, old text and new text. Goals are named by the tests on the way to
# them (`x < y` and `x <= y` alike, `x == 0` and `x == 1` not), so an edit changes a test in such a way that the names stay.
# The list's room looked at before the marks
SHORT_FIRST = [
    ("specs/Wanted.antt", "    (not (closed (held_events (view g)) (events_in ws)), 17) ∷\n    (ltb (length lent) (length (wanted_parents (view g) ws)), 11) ∷ [])",
     "    (ltb (length lent) (length (wanted_parents (view g) ws)), 11) ∷\n    (not (closed (held_events (view g)) (events_in ws)), 17) ∷ [])"),
]

MODEL = [
    ("pushing::push", "takes a parent that is no known event: C6", "unknown_parent"),
    ("pushing::push", "leaves later parents on a split run's first part: demand 3", "later_parents"),
    ("replaying::replay", "opens and applies without moves: demand 3", "no_moves"),
    ("replaying::replay", "works in the first range only: demand 3", "first_range_only"),
    ("replaying::replay", "Opens that do not lie side by side: demand 3", "opens_elsewhere"),
    ("replaying::replay", "moved is not the events in the moves: demand 3", "moved_from_nowhere"),
    ("walking::walk", "writes no steps: demand 3", "no_steps"),
    ("walking::walk", "weighs the oldest first: C1", "oldest_first"),
    ("walking::walk", "covers by event numbers in place of offsets: the cases", "offsets_from_0"),
    ("lookups::containing", "before the graph and not yet known exchanged: F-11", "sides_exchanged"),
    ("lookups::containing", "the event len, and later ones, in the last run: F-11, C6", "len_in_last_run"),
    ("archive::archive_points", "the starts of marked runs alone, as before F-6: C1", "marked_starts"),
    ("archive::archive_points", "asks of the first event from the start on alone: F-6", "first_event_seen"),
    ("wanted::wanted_parents", "an ancestor is left in the answer: F-3", "wanted_ancestors"),
    ("wanted::wanted_parents", "a mark that is not closed is taken: F-3's cases", "unclosed_mark"),
    ("wanted::wanted_parents", "11 before 17: F-3's cases", SHORT_FIRST),
    ("concurrent::concurrent_runs", "falling by run number: F-2", "concurrency_falling"),
    ("concurrent::concurrent_runs", "run 0 is left out: F-2", "concurrent_left_out"),
    ("starting::start_run_at", "a split gives the second part its own start as seen: F-4", "second_part_seen"),
    ("starting::start_run_at", "splits a marked run though the next is marked: F-4, C9", "next_run_marked"),
    ("reading::read", "a book cut short is whole: F-1's cases", "short_is_whole"),
    ("reading::read", "no bytes are refused: F-1's cases", "empty_refused"),
    ("u32::from", "11 for 13", "answers.rt", "Refusal::RowsTooLong => 13", "Refusal::RowsTooLong => 11"),
    ("u32::from", "1 and 2 exchanged", "answers.rt", "Refusal::Broken => 1,\n            Refusal::NoEvents => 2,", "Refusal::Broken => 2,\n            Refusal::NoEvents => 1,"),
]

# The two sides of a graph exchanged
EXCHANGED = [
    ("src/lookups.rt", "else {\n        return Containing::Before;", "else {\n        return Containing::Unknown;"),
    ("src/lookups.rt", "== starts.len() {\n        return Containing::Unknown;", "== starts.len() {\n        return Containing::Before;"),
]

GRAPH = [
    ("broken::is_broken", "a graph whose changed_from equals its run count is broken", "broken.rt", "g.run_count < changed.0 as usize", "g.run_count <= changed.0 as usize"),
    ("broken::is_broken", "a graph with wrong marks is not broken", "broken.rt", "|| self.bad_marks()", "|| (self.bad_marks() && false)"),
    ("fresh::new", "changed_from is 1", "fresh.rt", "let from = EventRunIndex(0);", "let from = EventRunIndex(1);"),
    ("fresh::new", "the frontier holds event 0", "fresh.rt", "fresh_held(EventIndex(0), &[])", "fresh_held(EventIndex(0), &[0])"),
    ("fresh::after", "refuses a rising frontier and takes one that is not", "fresh.rt", "if !lists::is_rising(frontier)", "if lists::is_rising(frontier)"),
    ("fresh::after", "refuses a frontier of exactly 512 events", "fresh.rt", "if MAX_FRONTIER < frontier.len()", "if MAX_FRONTIER < frontier.len() + 1"),
    ("pushing::push", "refuses a push that ends at 4,294,967,295", "pushing.rt", "over(MAX_LEN as usize, start.0", "over(MAX_LEN as usize - 1, start.0"),
    ("pushing::push", "a run that saw all before it counts as seen up to its start", "growth.rt", "EventIndex(g.graph.starts[next]),", "EventIndex(g.graph.starts[place]),"),
    ("pushing::push", "a held parent takes no entry", "pushing.rt", "held: t.held + 1,", "held: t.held + 0,"),
    ("pushing::push", "counts the held parents before it among the splits", "pushing.rt", "splits: t.splits + usize::from(!ended),", "splits: t.held + usize::from(!ended),"),
    ("pushing::push", "a parent's run is split though it ends in the parent", "splitting.rt", "if !crate::broken::is_next(p.0, end) {", "if !crate::broken::is_next(p.0, p.0) {"),
    ("pushing::push", "a split forgets that later runs' entries stand a place later", "splitting.rt", "insert_and_grow(&mut g.parent_starts[..runs + 2], next, later, 0, 1)", "insert_and_grow(&mut g.parent_starts[..runs + 2], next, later, 0, 0)"),
    ("pushing::push", "a split does not lower changed_from", "splitting.rt", "g.changed_from = run.min(was);", "g.changed_from = was.min(was);"),
    ("pushing::push", "takes a parent that the graph does not hold", "push_unknown_parent"),
    ("pushing::push", "leaves the graph as it was", "push_changes_nothing"),
    ("pushing::push", "refuses every push whose parents are as they should be", "pushing.rt", "if 0 < counts.unknown {", "if 0 < counts.unknown + 1 {"),
    ("starting::start_run_at", "always told false", "start_constant"),
    ("starting::start_run_at", "splits and tells false", "starting.rt", "    Ok(true)", "    Ok(false)"),
    ("starting::start_run_at", "splits the last run though it is marked", "starting.rt", "== g.graph.run_count {\n        return true;", "== g.graph.run_count {\n        return false;"),
    ("starting::take_changed_from", "does not reset", "starting.rt", "graph: h,\n        answer: Ok(was)", "graph: g.graph,\n        answer: Ok(was)"),
    ("starting::take_changed_from", "answers the run count", "starting.rt", "answer: Ok(was)", "answer: Ok(none)"),
    ("lookups::start", "refuses the run count", "lookups.rt", "if g.run_count < n {", "if g.run_count <= n {"),
    ("lookups::start", "refuses a run past the run count with 4 in place of 9", "lookups.rt", "return Err(Refusal::Outside)", "return Err(Refusal::UnknownEvent)", 0),
    ("lookups::events", "the next run's first event in place of its own", "lookups.rt", "Ok((EventIndex(g.starts[n]),", "Ok((EventIndex(g.starts[next]),"),
    ("lookups::events", "answers the run count", "lookups.rt", "if g.run_count <= n {\n        return Err", "if g.run_count < n {\n        return Err", 0),
    ("lookups::parents", "the parents of the run and the next", "lookups.rt", "let next = n + 1;\n    let from", "let next = n + 2;\n    let from"),
    ("lookups::parents", "counts the entries of all runs up to it", "lookups.rt", "count: to - from,", "count: to - 0,"),
    ("lookups::containing", "before the graph and not yet known exchanged", EXCHANGED),
    ("lookups::containing", "the last run for event number len", "lookups.rt", "|s| EventIndex(*s) <= event)", "|s| EventIndex(*s) <= event && (*s < event.0 || *s < starts[starts.len() - 1]))"),
    ("lookups::containing", "the first held event is before the graph", "lookups.rt", "|s| EventIndex(*s) <= event)", "|s| EventIndex(*s) <= event && event.0 != starts[0])"),
    ("lookups::len", "0 for a broken graph", "lookups.rt", "    let g = HeldGraph::of(g)?;\n    Ok(g.len())", "    if crate::broken::is_broken(g) {\n        return Ok(EventIndex(0));\n    }\n    let g = HeldGraph::of(g)?;\n    Ok(g.len())"),
    ("lookups::len", "the first held event", "lookups.rt", "Ok(g.len())", "Ok(EventIndex(g.len().0.min(g.graph.starts[0])))"),
    ("lookups::is_empty", "true where the frontier is empty", "lookups.rt", "g.run_count == 0", "g.frontier_count == 0"),
    ("lookups::is_empty", "true where no run has parents", "lookups.rt", "g.run_count == 0", "g.entry_count == 0"),
    ("lookups::frontier", "a count of 1 whatever the frontier", "lookups.rt", "count: g.frontier_count,", "count: 1,"),
    ("lookups::frontier", "a broken graph refused with 9", "lookups.rt", "    let g = HeldGraph::of(g)?.graph;\n    let events = g.frontier;", "    if crate::broken::is_broken(g) {\n        return Err(Refusal::Outside);\n    }\n    let g = HeldGraph::of(g)?.graph;\n    let events = g.frontier;"),
    ("lookups::extends_last_event", "true on a graph with no runs", "pushing.rt", "if g.graph.run_count == 0 {\n        return false;", "if g.graph.run_count == 0 {\n        return true;"),
    ("lookups::extends_last_event", "true of a longer list whose first is the last event", "pushing.rt", "ps == &last[..]", "&ps[..ps.len().min(1)] == &last[..]"),
    ("lookups::first_held_event", "the second run's start", "lookups.rt", "EventIndex(g.starts[0])", "EventIndex(g.starts[1])"),
    ("lookups::first_held_event", "0 where no runs are held", "lookups.rt", "EventIndex(g.starts[0])", "EventIndex(g.seen_prefix_len[0])"),
    ("ranges::range_outcome", "refuses an empty range", "ranges.rt", "if end < first {", "if end < EventRunIndex(first.0.saturating_add(1)) {"),
    ("ranges::range_outcome", "refuses known equal to the range's length", "ranges.rt", "if end.0 - first.0 < known {", "if end.0 - first.0 <= known {"),
    ("cut::split_at_critical_versions_from", "refuses the run count with 10 in place of 9", "cut.rt", "if runs <= from.0 as usize {", "if runs < from.0 as usize {"),
    ("cut::split_at_critical_versions_from", "a Linear ends where the Concurrent after it ends", "cut.rt", "put_linear(out, first, a)", "put_linear(out, first, b)"),
    ("cut::split_at_critical_versions", "refuses 'list too short' though the record fits", "records.rt", "self.list.len() / N <= self.count", "self.list.len() / N <= self.count + 1"),
    ("cut::split_at_critical_versions", "ranges of one run are Concurrent", "cut.rt", "if is_next(a.0, b.0) {", "if is_next(b.0, b.0) {"),
    ("archive::archive_points", "count 0 where the list is too short", "records.rt", "count: self.count,", "count: if outcome.is_err() { 0 } else { self.count },"),
]

VERSIONS = [
    ("archive::archive_points", "one head among a run's parents is enough, the last", "one_head"),
    ("archive::archive_points", "a run's last child in place of its first", "last_child"),
    ("archive::archive_points", "a child at the run itself counts as one below it", "archive.rt", "first.is_none_or(|child| run <= child)", "first.is_none_or(|child| run < child)"),
    ("archive::archive_points", "counts one head too many", "archive.rt", "let mut heads = 0;", "let mut heads = 1;"),
    ("archive::archive_points", "a run without parents has seen itself", "archive.rt", "return EventRunIndex(0);", "return run;"),
    ("archive::archive_points", "count 0 where the list is too short", "words.rt", "count: n,\n            outcome: Err(Refusal::ListTooShort),", "count: 0,\n            outcome: Err(Refusal::ListTooShort),"),
    ("archive::archive_points", "the first is left out", "archive.rt", "for r in runs.as_slice() {", "for r in &runs.as_slice()[runs.len().min(1)..] {"),
    ("concurrent::concurrent_runs", "all runs, itself too", "concurrent.rt", "flags[run.0 as usize] = true;", "flags[run.0 as usize] = false;"),
    ("concurrent::concurrent_runs", "writes the runs that fit where the list is too short", "concurrent.rt", "put_all(concurrent_words(g, run), list)", "crate::words::put_fitting(concurrent_words(g, run), list)"),
    ("concurrent::concurrent_runs", "run 0 is left out", "concurrent.rt", "push_if(!*flag, q as u32);", "push_if(!*flag && q != 0, q as u32);"),
    ("concurrent::concurrent_runs", "falling by run number", "concurrent.rt", "push_if(!*flag, q as u32);", "push_if(!flags[flags.len() - 1 - q], (flags.len() - 1 - q) as u32);"),
    ("wanted::wanted_parents", "an ancestor is left in the answer", "ancestor_left"),
    ("wanted::wanted_parents", "a mark that is not closed is taken", "parent_unmarked"),
    ("wanted::wanted_parents", "a range that begins inside a run is taken", "wanted.rt", "if !ranges.all_clear(starts) {", "if !ranges.all_clear(&starts[..1]) {"),
    ("wanted::wanted_parents", "a parent run of which some events are marked counts as whole", "wanted.rt", "!flag || end == Some(next)", "!flag || end <= Some(next)"),
    ("wanted::wanted_parents", "the event after the last marked one", "wanted.rt", "e.0.saturating_sub(1)", "e.0.saturating_sub(0)"),
    ("wanted::wanted_parents", "a first without its end is taken", "ranges.rt", "if words.len() % 2 == 1 {", "if words.len() % 2 == 2 {"),
    ("wanted::wanted_parents", "refuses a range that ends at len", "ranges.rt", "EventIndex(*high) <= end", "EventIndex(*high) < end"),
    ("wanted::wanted_parents", "takes an event before the first held one", "ranges.rt", "first <= EventIndex(*low) &&", "EventIndex(0) <= EventIndex(*low) &&"),
    ("wanted::wanted_parents", "writes the parents that fit where the list is too short", "wanted.rt", "put_all(wanted_words(g, ranges), list)", "crate::words::put_fitting(wanted_words(g, ranges), list)"),
    ("wanted::wanted_parents", "17 in place of 11", "wanted.rt", "    put_all(wanted_words(g, ranges), list)\n",
     "    let put = put_all(wanted_words(g, ranges), list);\n    match put.outcome {\n        Err(Refusal::ListTooShort) => graph::records::unwritten(Refusal::NoSuchParents),\n        _ => put,\n    }\n"),
]

READER = [
    ("reader::StepReader::new", "stands at the second step", "lib.rt", "StepReader { words, at: 0 }", "StepReader { words, at: 3 }"),
    ("reader::StepReader::new", "stands one word in", "lib.rt", "StepReader { words, at: 0 }", "StepReader { words, at: 1 }"),
    ("reader::StepReader::next", "moves past a kind above 3", "moves_on_refusal"),
    ("reader::StepReader::next", "moves on by two words", "lib.rt", "answer(Ok(Some(step)), at + 3)", "answer(Ok(Some(step)), at + 2)"),
    ("reader::step_at", "takes kind 4 as a step", "kind_four"),
    ("reader::step_at", "the last step is the end", "lib.rt", "let [kind, a, b, ..] = left", "let [kind, a, b, _, ..] = left"),
    ("reader::step_at", "an advance read as a retreat", "lib.rt", "Some(WalkStep::Advance(a, b))", "Some(WalkStep::Retreat(a, b))"),
    ("reader::step_at", "an apply's end as its run", "lib.rt", "Some(WalkStep::Apply(a))", "Some(WalkStep::Apply(b))"),
    ("reader::step_at", "an open's end is its first run", "lib.rt", "Some(WalkStep::Open(a, b))", "Some(WalkStep::Open(a, a))"),
]

LENT = [
    ("lent::push", "keeps the old graph", "push_dropped"),
    ("lent::start_run_at", "keeps the old graph", "start_dropped"),
    ("lent::take_changed_from", "keeps the old graph", "take_dropped"),
]

CALLS = [
    ("calls::Form::push", "lent, gives back the graph that it was given", "forms.rt", "Changed { graph: h, answer }", "Changed { graph: g, answer }", 0),
    ("calls::Form::start_run_at", "lent, gives back the graph that it was given", "forms.rt", "Changed { graph: h, answer }", "Changed { graph: g, answer }", 1),
    ("calls::Form::take_changed_from", "lent, gives back the graph that it was given", "forms.rt", "Changed { graph: h, answer }", "Changed { graph: g, answer }", 2),
    ("calls::made_by", "a push's graph is dropped", "push_dropped"),
    ("calls::made_by", "a run start at another event", "another_event"),
    ("calls::made_by", "an after is made as new", "said.rt", "                made.graph\n", "                graph::fresh::new()\n"),
    ("calls::made_by", "the start is read as a call too", "lib.rt", "calls(start.begin(), rest)", "calls(start.begin(), words)"),
    ("calls::start_again", "the later run start gets the graph of the first", "lib.rt", "again_form.start_run_at(given, at)", "again_form.start_run_at(started.graph, at)"),
    ("calls::start_again", "makes the calls before once more, not those between", "lib.rt", "calls(started.graph, between)", "calls(started.graph, words)"),
    ("calls::start_again", "tells the first answer twice", "lib.rt", "again: started_again.answer,", "again: started.answer,"),
    ("calls::start_again", "always gives back the graph that it was given", "lib.rt", "left: started_again.graph,", "left: given,"),
]

MOVES = [
    ("replaying::replay", "opens and applies without moves", "no_moves"),
    ("replaying::replay", "writes no steps", "writing.rt", "if self.list.len() / 3 <= n {", "if (self.list.len() / 3 <= n) | true {"),
    ("replaying::replay", "moved is 0", "writing.rt", "u128::from(events)", "u128::from(events - events)"),
    ("walking::walk", "moved forgets the advances", "advances_not_moved"),
    ("walking::walk", "moved counts an event for each Apply", "moving.rt", "put_step(Kind::Apply, at, at + 1, 0)", "put_step(Kind::Apply, at, at + 1, 1)"),
    ("walking::walk", "retreats fall along a chain", "retreats_falling"),
    ("walking::walk", "11 though a step more fits", "writing.rt", "self.list.len() / 3", "self.list.len() / 4"),
    ("walking::walk", "13 in place of 11", "writing.rt", "Err(Refusal::ListTooShort)", "Err(Refusal::RowsTooLong)"),
    ("replaying::replay", "moved is the step count", "writing.rt", "moved: self.moved as u64,", "moved: self.count,"),
    ("replaying::replay", "count 0 under 13", "writing.rt", "count: self.count,", "count: match outcome { Err(Refusal::RowsTooLong) => 0, _ => self.count },"),
]

TABLES = [
    ("walking::walk", "a chain for each run", "each_run_a_chain"),
    ("walking::walk", "no row is written", "rows.rt", "rows[used..used + width].copy_from_slice(&row[..width]);", "rows[used..used + 0].copy_from_slice(&row[..0]);"),
    ("walking::walk", "13 though the rows just fit", "rows.rt", "if rows.len() < used + width {", "if rows.len() <= used + width {"),
    ("walking::walk", "a cover is not joined with its children's", "covers.rt", "kids.row(r)", "&kids.row(r)[0..0]"),
    ("walking::walk", "a cover's last bit rounded down", "covers.rt", "offset_of(starts, r + 1).div_ceil(per)", "(offset_of(starts, r + 1) / per).div_ceil(1)"),
    ("walking::walk", "128 bits to a cover", "covers.rt", "events.div_ceil(COVER_BITS)", "events.div_ceil(128)"),
    ("walking::walk", "the range's first run is nobody's parent", "groups.rt", "if p < a {", "if p <= a {"),
]

WALK = [
    ("walking::walk", "weighs all ready runs", "choice.rt", "m.saturating_sub(MAX_WEIGHED)", "m.saturating_sub(m)"),
    ("walking::walk", "weighs the last 65", "choice.rt", "m.saturating_sub(MAX_WEIGHED)", "m.saturating_sub(65)"),
    ("walking::walk", "weighs the oldest first", "oldest_first"),
    ("walking::walk", "measures on after cost 0", "measured_on"),
    ("walking::walk", "a tie goes to the older", "choice.rt", "(a.cost, a.weight) < (b.cost, b.weight)", "(a.cost, a.weight) <= (b.cost, b.weight)"),
    ("walking::walk", "first is ignored", "walking.rt", "self.known.max(self.first.min(runs))", "self.known.max(self.known.min(runs))"),
    ("walking::walk", "first below known is taken as it is", "walking.rt", "self.known.max(self.first.min(runs))", "0u32.max(self.first.min(runs))"),
    ("walking::walk", "writes no steps", "ready.rt", "self.ready[self.count] = r;\n        self.count += 1;", "self.ready[self.count] = r;\n        self.count += 0;"),
    ("replaying::replay", "opens and applies without moves", "replaying.rt", "RangeKind::from(*word)", "RangeKind::from(*word / 2)"),
    ("replaying::replay", "writes no steps", "replaying.rt", "cut[..3 * w.count]", "cut[..0 * w.count]"),
    ("replaying::replay", "works in the first range only", "replaying.rt", "in ranges {", "in &ranges[..ranges.len().min(1)] {"),
    ("replaying::replay", "opens no run", "replaying.rt", "Kind::Open, a.0, b.0, 0)", "Kind::Open, a.0, a.0, 0)"),
    ("replaying::replay", "takes a range's first run as known", "replaying.rt", "known: 0,", "known: 1,"),
]

BOOK = [
    ("reading::read", "takes bytes left over", "left_over_taken"),
    ("reading::read", "pushes counted from 1", "pushes_from_one"),
    ("reading::read", "a book of 65,537 bytes is taken", "reading.rt", "if MAX_BOOK < bytes.len() {", "if MAX_BOOK < bytes.len() - 1 {"),
    ("reading::read", "the header's frontier is not tried, and pushes are made under a header that is refused", "reading.rt", "header.frontier);", "&header.frontier[0..0]);"),
    ("reading::read", "a refused header is told as push 0", "reading.rt", "answered(held, Err(BookRefusal::Refused(r)))", "answered(held, Err(BookRefusal::PushRefused(r, 0)))"),
    ("reading::read", "a refused push does not end it", "reading.rt", "Err(r) => Err(BookRefusal::PushRefused(r, k)),", "Err(r) => Err(BookRefusal::PushRefused(r, k)).or(Ok(left)),"),
    ("reading::read", "no bytes are refused with 14", "reading.rt", "return answered(fresh(), Ok(()));", "return answered(fresh(), Err(BookRefusal::Refused(Refusal::BookTooShort)));"),
    ("reading::read", "a book of one byte is taken for the empty one", "reading.rt", "if bytes.is_empty() {", "if bytes[..bytes.len() / 2].is_empty() {"),
    ("replaying::replayed", "prints no steps", "replaying.rt", "&steps[..words]", "&steps[..0]"),
    ("replaying::replayed", "leaves out a line that just fits", "full_buffer"),
    ("replaying::replayed", "moved 0", "replaying.rt", "last_line(walked.outcome, walked.moved)", "last_line(walked.outcome, 0)"),
]

TRIES = {"model": MODEL, "graph": GRAPH, "versions": VERSIONS, "reader": READER, "lent": LENT, "calls": CALLS, "moves": MOVES, "tables": TABLES, "walk": WALK, "book": BOOK}

# Each with its crate, numbered through
ALL = [(crate, t) for crate, tries in TRIES.items() for t in tries]

# An error, or a note of a goal that is not proved, with its file; one that says no more than that a name is gone from a proof file, or that another proof was refused; and one
# that says that the edited text cannot be read
TOLD = re.compile(r"(?:note: (?:\./)?(\S+?):\d+:\d+: |(?:\./)?(\S+?):\d+:\d+: error(\[[\w-]+\])?: )")
NAMES = re.compile(r"has no field|is not in scope|has no `|can be named from here|was not admitted|was rejected, w")
UNREAD = re.compile(r"is not in scope|has no field|is no name|operand is missing|expected the end|cannot continue")


def edited(text, old, new, which=None):
    parts = text.split(old)
    if which is None:
        assert len(parts) == 2, (len(parts) - 1, old)
        which = 0
    assert which < len(parts) - 1, (which, len(parts) - 1, old)
    return old.join(parts[: which + 1]) + new + old.join(parts[which + 1 :])


def edits(crate, name, *texts):
    """Files of the crate, each with the old and the new text."""
    if isinstance(name, list):
        return name
    if texts:
        return [("src/" + name, *texts)]
    found = []
    places = [os.path.join(TOP, "crates", crate, "must-fail"), os.path.join(TOP, "tools", "wrong_answers", crate)]
    for line in open(next(p for p in [os.path.join(d, name + ".edit") for d in places] if os.path.exists(p))):
        key, _, text = line.rstrip("\n").partition(": ")
        if key == "file":
            path = text
        elif key == "old":
            old = text
        elif key == "new":
            found.append((path, old, text))
    return found


def texts(crate, *edit):
    """The edited files of a crate, by their paths, with their text."""
    found = {}
    for name, *parts in edits(crate, *edit):
        if name not in found:
            with open(os.path.join(TOP, "crates", crate, name), encoding="utf-8") as f:
                found[name] = f.read()
        found[name] = edited(found[name], *parts)
    return found


def check(tree, crate):
    how = {"cwd": os.path.join(tree, "crates", crate), "stdout": subprocess.PIPE, "stderr": subprocess.STDOUT, "text": True, "errors": "replace"}
    return subprocess.run([RT, "check", *(["--jobs", "1"] if JOBS > 1 else [])], **how)


def judged(said, names):
    """Whether a fact was refused, and the line that says so, or what was said in its place."""
    lines = said.stdout.split("\n")
    last = next((line for line in reversed(lines) if line.startswith("logic=")), "")
    if said.returncode == 0 or last.startswith("logic=proved"):
        return False, "STILL PROVED"
    told = [(line, at[1] or at[2], at[3]) for line in lines for at in [TOLD.match(line)] if at]
    for line, path, kind in told:
        if kind or (path in names or path.startswith(("src/", "specs/"))) and UNREAD.search(re.sub(r"`[^`]*`", "", line)):
            return False, "THE EDITED TEXT IS NOT READ: " + line
    if not last.startswith("logic=not-proved"):
        return False, "NO VERDICT: " + " ".join(lines[-4:])
    # A goal that is open only since its name is another, and the answer's name is gone, says little, unless numbers refute it
    gone = [line for line, _, _ in told if NAMES.search(line)]
    facts = [line for line, _, _ in told if line not in gone and (not line.startswith("note: ") or not gone or "allow values at which" in line)]
    if not facts:
        return False, "REFUSED FOR NAMES ALONE: " + (gone + [last])[0]
    return True, "refused: " + facts[0]


def refused(tree, crate, i):
    _, (call, words, *edit) = ALL[i]
    folder = os.path.join(tree, "crates", crate)
    kept, begin = {}, os.path.join(tree, "begin")
    # Each begins with what the crate's own check left
    shutil.rmtree(os.path.join(folder, "out"))
    shutil.copytree(begin, os.path.join(folder, "out"), symlinks=True)
    new = texts(crate, *edit)
    for name, text in new.items():
        path = os.path.join(folder, name)
        with open(path, encoding="utf-8") as f:
            kept[path] = f.read()
        with open(path, "w", encoding="utf-8") as f:
            f.write(text)
    said = check(tree, crate)
    for path, text in kept.items():
        with open(path, "w", encoding="utf-8") as f:
            f.write(text)
    ok, why = judged(said, new)
    if LOGS:
        with open(os.path.join(LOGS, "%d.log" % i), "w") as f:
            f.write("%s: %s: %s\n%s\n%s\n%s" % (crate, call, words, edit, why, said.stdout))
    print("%2d %s: %s: %s: %s" % (i, crate, call, words, why[:200]), flush=True)
    return ok


def wanted(words):
    """The numbers of the entries that the words name, by crate."""
    for crate in TRIES:
        yield crate, [i for i, (c, _) in enumerate(ALL) if c == crate and (not words or crate in words or str(i) in words)]


def all_texts(words):
    """Tells which edits do not stand in today's files, and whether all do."""
    bad = count = 0
    for crate, numbers in wanted(words):
        for i in numbers:
            count += 1
            try:
                texts(crate, *ALL[i][1][2:])
            except (AssertionError, OSError, StopIteration) as why:
                bad += 1
                print("%2d %s: %s: DOES NOT STAND: %s" % (i, crate, ALL[i][1][1], why))
    print("%d edits, %d do not stand" % (count, bad))
    return not bad


def run(words):
    done = []
    if LOGS:
        os.makedirs(LOGS, exist_ok=True)
    with tempfile.TemporaryDirectory() as folder, concurrent.futures.ThreadPoolExecutor(JOBS) as pool:
        free = queue.Queue()
        trees = [os.path.join(folder, "tree%d" % i) for i in range(JOBS)]
        for tree in trees:
            # (crates/*/out too, so that only what is edited is checked)
            shutil.copytree(TOP, tree, symlinks=True, ignore=shutil.ignore_patterns(".git"))

        def one(crate, i):
            tree = free.get()
            try:
                return refused(tree, crate, i)
            finally:
                free.put(tree)

        for crate, numbers in wanted(words):
            if not numbers:
                continue
            began = time.time()
            used = trees[: len(numbers)]
            for tree in used:
                if check(tree, crate).returncode != 0:
                    sys.exit("without an edit crates/%s is not proved" % crate)
                shutil.rmtree(os.path.join(tree, "begin"), ignore_errors=True)
                shutil.copytree(os.path.join(tree, "crates", crate, "out"), os.path.join(tree, "begin"), symlinks=True)
                free.put(tree)
            done += pool.map(one, [crate] * len(numbers), numbers)
            while not free.empty():
                free.get()
            print("%s: %d s" % (crate, time.time() - began), flush=True)
    print("%d tried, %d refused" % (len(done), sum(done)))
    return all(done)


if __name__ == "__main__":
    words = [word for word in sys.argv[1:] if word != "--texts"]
    sys.exit(0 if (all_texts if "--texts" in sys.argv else run)(words) else 1)
