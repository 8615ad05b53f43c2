#!/usr/bin/env python3
"""definitions.py SAMPLE SEED COUNT: random call lists and the Rust's answers (of the program SAMPLE) as equations in antt.

Each equation says that the definitions of crates/model/specs compute what the Rust answered: every call's answer, the graph's
starts, frontier, seen lengths, marks, changed_from and parents, the cut, the full replay, and one walk with its rows."""
import json
import subprocess
import sys

HEAD = """-- Random call lists, held against the Rust. Assumes nothing.
use mathlib.Core.Path.{◌≡◌, refl}
use mathlib.Core.List.{List, [], ◌∷◌}
use Prim.Native.Nat.{ℕ, ◌*◌}
use mathlib.Core.Bool.{false}
use lib.ListN.{replicate, take}
use Rattle.model.specs.declared.record.CausalGraph.{CausalGraph}
use Rattle.model.specs.Graph.{marks}
use Rattle.model.specs.Record.{view}
use Rattle.model.specs.Broken.{broken}
use Rattle.model.specs.Answers.{outcome_number}
use Rattle.model.specs.Walk.{WalkResult, walk_of}
use Rattle.model.specs.Replay.{replay_of}
use Rattle.model.specs.Cut.{cut_of}
use Rattle.model.specs.Log.{new, after, Call, push, start_run_at, take_changed_from, begin, made_by}
use Rattle.model.specs.Cases.{answers}
use Rattle.model.proofs.Everything.{everything}

abbrev room : List ℕ
room = replicate 3000 7

abbrev said : WalkResult → List (List ℕ)
said r = (outcome_number r.0.outcome ∷ r.0.count ∷ r.0.moved ∷ []) ∷ take (3 * r.0.count) r.2 ∷ []

abbrev cut : CausalGraph → List ℕ
cut g = let r = cut_of g 0 room in (outcome_number r.0.outcome ∷ r.0.count ∷ take (3 * r.0.count) r.1)

abbrev shape : CausalGraph → List (List ℕ)
shape g = let v = view g in v.starts ∷ v.frontier ∷ v.seen ∷ marks v ∷ (v.changed ∷ []) ∷ v.parents
"""


def items(xs, f=str):
    return "(" + " ∷ ".join([f(x) for x in xs] + ["[]"]) + ")" if xs else "[]"


def lists(xs):
    return items(xs, items)


def flat(rows):
    return [x for row in rows for x in row]


def equations(name, script):
    fresh, refused, calls, answers = "new", 0, [], []
    for c in script["calls"]:
        if c["call"] == "after":
            fresh, refused = f"(after {c['events']} {items(c['frontier'])})", c["refused"]
        elif c["call"] == "push":
            calls.append(f"push {items(c['parents'])} {c['len']}")
            answers.append([c["refused"], c["first"], c["end"]])
        elif c["call"] == "start_run_at":
            calls.append(f"start_run_at {c['at']}")
            answers.append([0, int(c["answer"])])
        elif c["call"] == "take_changed_from":
            calls.append("take_changed_from")
            answers.append([0, c["answer"]])
    walk, cut, replay = script["walk"], script["cut"], script["replay"]
    rows = flat(walk["rows"])
    graph = [script["starts"], script["frontier"], script["seen"], script["marks"], [script["changed"]]] + script["parents"]
    walked = f"walk_of {name}_graph {walk['from']} {walk['to']} {walk['known']} {walk['first']} room room"
    facts = [
        f"(outcome_number (begin {fresh}).0 ≡ {refused})",
        f"(answers (begin {fresh}).1 {name}_calls ≡ {lists(answers)})",
        f"(broken {name}_graph ≡ false)",
        f"(shape {name}_graph ≡ {lists(graph)})",
        f"(cut {name}_graph ≡ {items([0, len(cut)] + flat(cut))})",
        f"(said (replay_of {name}_graph room room) ≡ {lists([[0, len(replay), script['moved']], flat(replay)])})",
        f"(said ({walked}) ≡ {lists([[0, len(walk['steps']), walk['moved']], flat(walk['steps'])])})",
        f"(take {len(rows) + 1} ({walked}).1 ≡ {items(rows + [7])})",
    ]
    return (
        f"abbrev {name}_calls : List Call\n{name}_calls = {items(calls)}\n\n"
        f"abbrev {name}_graph : CausalGraph\n{name}_graph = (made_by {fresh} {name}_calls).0\n\n"
        f"{name} : {' × '.join(facts)}\nunfolding everything\n{name} = ({', '.join(['refl'] * len(facts))})\n"
    )


sample, seed, count = sys.argv[1:4]
scripts = subprocess.run([sample, seed, count], capture_output=True, text=True, check=True).stdout.split("\n")
print(HEAD)
print("\n".join(equations(f"sample_{i}", json.loads(s)) for i, s in enumerate(scripts) if s))
