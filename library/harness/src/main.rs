//! harness [CALLS] [SEED] [--c PROGRAM]
//!
//! Runs the fixed suites, then so many random calls (100,000 where no number
//! is given), every one beside the second decoder: through Rust, and with
//! `--c` also through the C program `calls`. The seed settles all of it. It
//! ends with 1 at the first difference, and where a long enough run leaves a
//! call unanswered or one of its refusals ungiven.

use std::process::ExitCode;
use std::time::Instant;

use harness::bench::{Bench, Difference, Way};
use harness::make::Maker;
use harness::suites;
use harness::through_c::ThroughC;

const USAGE: &str = "usage: harness [CALLS] [SEED] [--c PROGRAM]";

/// So many random calls have to leave nothing untested, without the suites.
const ENOUGH: u64 = 50_000;

/// The suites are run once more for each of so many calls.
const CALLS_A_ROUND: u64 = 1_000_000;

struct Task {
    calls: u64,
    seed: u64,
    program: Option<String>,
}

fn task(mut words: impl Iterator<Item = String>) -> Result<Task, String> {
    let mut numbers = Vec::new();
    let mut program = None;
    while let Some(word) = words.next() {
        match word.as_str() {
            "--c" => program = Some(words.next().ok_or(USAGE)?),
            number => numbers.push(number.parse().map_err(|_| USAGE)?),
        }
    }
    let (calls, seed) = match numbers[..] {
        [] => (100_000, 1),
        [calls] => (calls, 1),
        [calls, seed] => (calls, seed),
        _ => return Err(USAGE.to_string()),
    };
    Ok(Task {
        calls,
        seed,
        program,
    })
}

/// The ways through Rust.
fn direct() -> Vec<Way> {
    harness::fence::watch();
    vec![
        Way {
            name: "through Rust",
            make: Box::new(harness::direct::through_rust),
        },
        Way {
            name: "through the safe functions of Rust",
            make: Box::new(harness::direct::through_safe),
        },
    ]
}

fn ways(program: Option<&str>) -> Result<Vec<Way>, String> {
    let mut ways = direct();
    if let Some(program) = program {
        let mut program = ThroughC::start(program)?;
        ways.push(Way {
            name: "through C",
            make: Box::new(move |call| program.call(call)),
        });
    }
    Ok(ways)
}

/// The suites and the random calls; what of the header the latter left out.
fn calls(bench: &mut Bench, task: &Task) -> Result<Vec<String>, Difference> {
    let mut maker = Maker::new(task.seed);
    let start = Instant::now();
    suites::run(bench, &mut maker, 1 + task.calls / CALLS_A_ROUND)?;
    let suites = bench.tally.clone();
    let seconds = start.elapsed().as_secs_f64();
    println!("{} calls of the suites in {seconds:.1} s", suites.all());

    let start = Instant::now();
    for _ in 0..task.calls {
        bench.ask(&maker.draw())?;
    }
    let seconds = start.elapsed().as_secs_f64();
    let rate = task.calls as f64 / seconds;
    println!(
        "{} random calls in {seconds:.1} s, {rate:.0} a second",
        task.calls
    );
    Ok(bench.tally.since(&suites).missing())
}

fn run() -> Result<(), String> {
    let task = task(std::env::args().skip(1))?;
    let ways = ways(task.program.as_deref())?;
    let names: Vec<&str> = ways.iter().map(|way| way.name).collect();
    println!("seed {}, every call {}", task.seed, names.join(" and "));

    let mut bench = Bench::new(ways);
    let missing = calls(&mut bench, &task).map_err(|difference| difference.0)?;
    println!("{}", bench.tally.table());
    if task.calls >= ENOUGH && !missing.is_empty() {
        return Err(format!("left untested:\n{}", missing.join("\n")));
    }
    println!("harness: {} calls, 0 differences", bench.tally.all());
    Ok(())
}

fn main() -> ExitCode {
    match run() {
        Ok(()) => ExitCode::SUCCESS,
        Err(words) => {
            println!("harness: {words}");
            ExitCode::FAILURE
        }
    }
}
