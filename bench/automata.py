#!/usr/bin/env python3
"""Times the call `build` of `cobuchi_automata` on responses, for both sides, beside a plain program in C++, whose states and edges have
to be as many. A program around the call is proved and built in a copy of the crates, so that the first lines take some minutes."""
import pathlib
import shutil
import subprocess
import tempfile

from measuring import HERE, measured

CRATES = ["base_library", "loop_shape", "ltl_formula", "obligations", "cobuchi_automata"]
TIMED = "automata_times"
RESPONSES = range(2, 7)
NOISE = 0.0005  # seconds, below which neither growth nor ratio says anything

MAIN = r"""
//! Builds the automaton of so many responses and prints how many states and edges it has.
#![tactic(auto)]

use cobuchi_automata::build;
use ltl_formula::{Ltl, LtlList, negate};
use base_library::NoMemory;
use std::alloc::Global;
use std::process::ExitCode;
use std::rt::Env;
use std::{env, io};

/// The formula holds at each position.
fn always(alloc: Global, formula: Ltl) -> Result<Ltl, NoMemory> {
    let never = Box::new(alloc, Ltl::False)?;
    Ok(Ltl::Release(never, Box::new(alloc, formula)?))
}

/// Where a bit is set, another one is set there or later.
fn response(alloc: Global, asked: u32, answered: u32) -> Result<Ltl, NoMemory> {
    let answer = Box::new(alloc, Ltl::Bit(answered))?;
    let later = Ltl::Until(Box::new(alloc, Ltl::True)?, answer);
    let mut members = Vec::new(alloc);
    members.push(Ltl::NotBit(asked))?;
    members.push(later)?;
    always(alloc, Ltl::Any(LtlList::from_vec(alloc, members)?))
}

/// So many responses, each always.
fn responses(alloc: Global, count: u32) -> Result<Ltl, NoMemory> {
    let mut members = Vec::new(alloc);
    for number in 0..count.min(30) {
        members.push(response(alloc, number, count.min(30) + number)?)?;
    }
    Ok(Ltl::All(LtlList::from_vec(alloc, members)?))
}

/// The words after the program's name.
fn words(rt: &(impl Env + AllocGlobal)) -> io::Result<Vec<String>> {
    Ok(env::args(rt)?.skip(1).collect(rt.alloc())?)
}

/// How many responses, from the second word.
fn count_of(words: &[String]) -> u32 {
    match words.get(1) {
        Some(word) => word.parse::<u32>().unwrap_or(1),
        None => 1,
    }
}

/// The formula that the words name: the environment's, or its negation, the controller's.
fn formula_of(alloc: Global, words: &[String]) -> Result<Ltl, NoMemory> {
    let all = responses(alloc, count_of(words))?;
    match words.first() {
        Some(word) if word.as_str() == "controller" => negate(alloc, &all),
        _ => Ok(all),
    }
}

fn main(rt: HostRuntime) -> ExitCode {
    let Ok(words) = words(&rt) else {
        return ExitCode::from(2);
    };
    let Ok(formula) = formula_of(rt.alloc(), &words) else {
        return ExitCode::from(8);
    };
    match build(rt.alloc(), &formula) {
        Ok(made) => {
            let states = made.states;
            let edges = made.edges.len();
            let _ = println!(rt; "{states} {edges}");
            ExitCode::from(0)
        }
        Err(error) => {
            let _ = println!(rt; "{error:?}");
            ExitCode::from(4)
        }
    }
}
"""


def built(folder):
    """The program around `build`, and the plain one."""
    root = HERE.parent
    crates = folder / "crates"
    for name in CRATES:
        shutil.copytree(root / "crates" / name, crates / name, ignore=shutil.ignore_patterns("out", "must-fail"))
    lines = [line for line in (root / "crates.txt").read_text().splitlines() if line.split(":")[0] in CRATES]
    (folder / "crates.txt").write_text("\n".join([*lines, f"{TIMED}: base_library ltl_formula cobuchi_automata", ""]))
    source = crates / TIMED / "src"
    source.mkdir(parents=True)
    (source / "main.rt").write_text(MAIN.lstrip())
    subprocess.run(["rt", "run", "--", "environment", "2"], cwd=crates / TIMED, check=True, stdout=subprocess.DEVNULL)
    plain = folder / "plain"
    subprocess.run(["c++", "-O2", "-std=c++17", "-o", plain, HERE / "automata.cpp"], check=True)
    subprocess.run(["cc", "-O2", "-o", folder / "measure", HERE / "measure.c"], check=True)
    return crates / TIMED / "out" / TIMED, plain


def sizes(program, side, count):
    done = subprocess.run([program, side, str(count)], capture_output=True, text=True, check=True)
    return tuple(int(word) for word in done.stdout.split())


def table(folder, program, plain, side):
    print(side)
    print(f"{'responses':>9} {'states':>7} {'edges':>7} {'seconds':>9} {'growth':>7} {'peak KiB':>9} {'plain C++':>10} {'ratio':>6}")
    start, _, _ = measured(folder, b"", [program, side, "0"])
    plain_start, _, _ = measured(folder, b"", [plain, side, "0"])
    before = None
    for count in RESPONSES:
        states, edges = sizes(program, side, count)
        if (states, edges) != sizes(plain, side, count):
            raise SystemExit("the automata differ")
        seconds, peak, _ = measured(folder, b"", [program, side, str(count)])
        plain_seconds, _, _ = measured(folder, b"", [plain, side, str(count)])
        own, other = max(seconds - start, 1e-6), max(plain_seconds - plain_start, 1e-6)
        growth = f"{own / before:7.2f}" if before and before > NOISE else "      -"
        ratio = f"{own / other:6.2f}" if min(own, other) > NOISE else "     -"
        print(f"{count:9} {states:7} {edges:7} {own:9.5f} {growth} {peak:9} {other:10.5f} {ratio}", flush=True)
        before = own


def main():
    with tempfile.TemporaryDirectory() as name:
        folder = pathlib.Path(name)
        program, plain = built(folder)
        table(folder, program, plain, "controller")
        table(folder, program, plain, "environment")


main()
