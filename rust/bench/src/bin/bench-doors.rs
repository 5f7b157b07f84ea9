//! `bench-doors`: what a state takes, how deep each call of the library goes into
//! its stack, and how long it takes beside the reference on the same words.

use std::env;
use std::process::ExitCode;

use bench::calls::cases;
use bench::machine;
use bench::measure::{agree, depth, in_turn};
use trials::doors::layout::*;
use trials::doors::library::library;
use trials::doors::model::model;

const HELP: &str = "\
bench-doors [--times N]

Makes each call of the library on a full order (64 tasks, 256 jobs kept, 15
reports) and on the longest record, after it has seen that it is accepted and
that the reference tells the same and leaves the same words. Prints the bytes of
each state; the stack that each call wrote to, by a thread on a painted stack;
and the time of each call beside the reference's on the same words, made in turn
N times (15 where it is not given), as medians and as a ratio.
";

/// What the stack of every call has to stay under.
const GOAL: usize = 32 * 1024;

fn main() -> ExitCode {
    let arguments: Vec<String> = env::args().skip(1).collect();
    let times = match arguments.iter().map(String::as_str).collect::<Vec<_>>()[..] {
        [] => Some(15),
        ["--times", number] => number.parse().ok().filter(|&times| times > 0),
        _ => None,
    };
    let Some(times) = times else {
        print!("{HELP}");
        return ExitCode::from(u8::from(arguments != ["--help"]));
    };
    print!("{}", machine::state());
    println!(
        "\nbytes of a table {}, a common record {}, a node {}",
        8 * TABLE_WORDS,
        8 * COMMON_WORDS,
        8 * NODE_WORDS
    );
    println!("bytes of the lists of a record, at most {} and {}", 16 * RELEASES, 32 * NODES);
    let deepest = calls(times);
    println!("\nthe deepest call wrote to {deepest} bytes of its stack, the goal is under {GOAL}");
    println!("load average now {}", machine::load());
    ExitCode::from(u8::from(deepest >= GOAL))
}

/// A line for each call, and the bytes of the deepest.
fn calls(times: usize) -> usize {
    println!(
        "\n{:<14} {:>12} {:>10} {:>14} {:>7}",
        "call", "stack, bytes", "ours, ns", "reference, ns", "ratio"
    );
    let mut deepest = 0;
    for (call, lent) in cases() {
        agree(&[&library], call, &lent);
        let deep = depth(&library, call, &lent);
        let medians = in_turn(times, &[&library, &model], call, &lent);
        let (ours, theirs) = (medians[0], medians[1]);
        let ratio = theirs.as_secs_f64() / ours.as_secs_f64();
        let name = call.name();
        println!("{name:<14} {deep:>12} {:>10} {:>14} {ratio:>7.2}", ours.as_nanos(), theirs.as_nanos());
        deepest = deepest.max(deep);
    }
    deepest
}
