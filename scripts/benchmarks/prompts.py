"""What the calls on one connection's prompts cost among 256 connections with 64 prompts each, against a connection alone with 64;
and what it costs to ask all prompts again for a new agent, for each prompt."""
import sys

from benchmarks.shared import best, lines_of, rattle_program

PROMPTS_PROGRAM = """//! Connections with prompts, and an agent; then what is told, as often as is told: the connections begin and end one prompt
//! more in turn, or leave and begin all their prompts anew, or the agent leaves and comes back. Prints how many prompts ended,
//! began or were asked.
#![tactic(auto)]

use kr_base::{ConnId, PromptId, Stem, Text};
use prompt_state::{PromptKind, PromptState, Target, Targets};
use std::alloc::Global;
use std::env;

fn agent() -> ConnId {
    ConnId(1000000)
}

// Two targets in one collection.
fn kind(alloc: Global) -> Option<PromptKind> {
    let mut list = Vec::new(alloc);
    for number in 1..3u32 {
        let given = Text::of_number(number);
        let stem = Stem::new(alloc, "login").ok()??;
        list.push(Target { given, stem }).ok()?;
    }
    Some(PromptKind::Unlock(Targets::new(list)))
}

// Begins so many prompts of a connection, and asks each of them.
fn begin(alloc: Global, prompts: &mut PromptState, owner: ConnId, count: u64) -> Option<u64> {
    for _ in 0..count {
        let prompt = prompts.begin(owner, kind(alloc)?).ok()?;
        prompts.ask(prompt, owner).ok()?;
    }
    Some(count)
}

fn filled(alloc: Global, connections: u64, each: u64) -> Option<PromptState> {
    let mut prompts = PromptState::new(alloc);
    prompts.register(agent()).ok()?;
    for number in 0..connections {
        begin(alloc, &mut prompts, ConnId(number), each)?;
    }
    Some(prompts)
}

// Answers a prompt of a connection, and dismisses it before its key is there.
fn finish(prompts: &mut PromptState, prompt: PromptId, owner: ConnId) -> Option<u64> {
    let asked = prompts.ask_of(prompt)?;
    let _ = prompts.answer(prompt, asked.round, agent()).ok()?;
    prompts.clear_wrong(prompt);
    prompts.done(prompt);
    prompts.drop_target(prompt);
    let _ = prompts.first_open(prompt);
    let derives = prompts.derived(prompt, asked.round);
    let _ = prompts.dismiss(prompt, owner).ok()?;
    Some(if derives { 1 } else { 0 })
}

// One more prompt of a connection, from its beginning to its end.
fn live(alloc: Global, prompts: &mut PromptState, owner: ConnId) -> Option<u64> {
    let prompt = prompts.begin(owner, kind(alloc)?).ok()?;
    prompts.ask(prompt, owner).ok()?;
    finish(prompts, prompt, owner)
}

// A connection leaves, and begins as many prompts as it had.
fn leave(alloc: Global, prompts: &mut PromptState, owner: ConnId, each: u64) -> Option<u64> {
    prompts.gone(owner);
    begin(alloc, prompts, owner, each)
}

// The agent leaves and comes back, and is asked for each prompt.
fn again(prompts: &mut PromptState) -> Option<u64> {
    prompts.unregister(agent()).ok()?;
    prompts.register(agent()).ok()?;
    let mut last = PromptId(0);
    let mut count = 0u64;
    for _ in 0..1000000u32 {
        match prompts.next_ask(last) {
            Some(asked) => {
                last = asked.prompt;
                count = count.saturating_add(1);
            }
            None => break,
        }
    }
    Some(count)
}

fn once(alloc: Global, prompts: &mut PromptState, what: &str, owner: ConnId, each: u64) -> Option<u64> {
    match what {
        "live" => live(alloc, prompts, owner),
        "leave" => leave(alloc, prompts, owner, each),
        _ => again(prompts),
    }
}

fn run(alloc: Global, what: &str, connections: u64, each: u64, rounds: u64) -> Option<u64> {
    let mut prompts = filled(alloc, connections, each)?;
    let mut count = 0u64;
    for round in 0..rounds {
        let owner = ConnId(round % connections.max(1));
        count = count.saturating_add(once(alloc, &mut prompts, what, owner, each)?);
    }
    Some(count)
}

fn main(rt: HostRuntime) {
    if let Ok(words) = env::args(&rt) {
        let mut words = words;
        let _name = words.next();
        let what = words.next();
        let connections = words.next().map_or(0, |word| word.as_str().parse::<u64>().unwrap_or(0));
        let each = words.next().map_or(0, |word| word.as_str().parse::<u64>().unwrap_or(0));
        let rounds = words.next().map_or(0, |word| word.as_str().parse::<u64>().unwrap_or(0));
        if let Some(what) = what {
            if let Some(count) = run(rt.alloc(), what.as_str(), connections, each, rounds) {
                let _ = println!(rt; "{count}");
            }
        }
    }
}
"""


def measure(folder):
    ours = rattle_program(folder, "prompts_bench", PROMPTS_PROGRAM, lines_of(["kr_base", "prompt_state"]))

    def spent(what, connections, each, rounds, prompts):
        """Seconds for one prompt, of which there are so many in each round."""
        took, printed = best([ours, what, connections, each, rounds])
        if int(printed) != rounds * prompts:
            sys.exit(f"scripts/bench: prompts_bench {what} prints {printed.strip()}, and not {rounds * prompts}")
        return (took - best([ours, what, connections, each, 0])[0]) / (rounds * prompts)

    # with 63 prompts a connection may begin one more
    for what, each, prompts, rounds, told in ("live", 63, 1, 2000000, "a prompt that is begun, asked, answered and dismissed"), (
            "leave", 64, 64, 50000, "a prompt of a connection that leaves and begins all of them anew"):
        alone, among = (spent(what, connections, each, rounds, prompts) for connections in (1, 256))
        print(f"prompt_state, {told}: among 256 connections {among / alone:.2f} of one alone; alone {alone * 1e9:.0f} ns")
    alone, among = spent("again", 1, 64, 200000, 64), spent("again", 256, 64, 800, 256 * 64)
    print(f"prompt_state, a prompt that a new agent is asked for: among 16,384 {among / alone:.2f} of among 64; among 64 {alone * 1e9:.0f} ns")
