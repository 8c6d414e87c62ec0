//! Compares the operations with the model, through the program crates/test_calls.

mod form;
mod lists;
mod malformed;
mod options;
mod program;
mod session;
mod stored;
mod tally;

use form::Placed;
use lists::{list, List};
use model::generate::calls::Call;
use model::sweep::CLOSE_BYTES;
use options::{Asked, Until};
use program::Program;
use session::Session;
use std::path::Path;
use std::process::ExitCode;
use std::time::Instant;
use tally::Tally;

/// After so many lists with a difference a run stops.
const FAILED_LISTS: u64 = 5;

fn main() -> ExitCode {
    let arguments: Vec<String> = std::env::args().skip(1).collect();
    let model = Path::new(env!("CARGO_MANIFEST_DIR"));
    let program = model.with_file_name("target").join("bin/test_calls");
    let asked = match options::parse(&arguments, program) {
        Ok(asked) => asked,
        Err(wrong) => {
            eprintln!("compare-calls: {wrong}; see compare-calls --help");
            return ExitCode::from(2);
        }
    };
    let done = match asked {
        Asked::Help => {
            print!("{}", options::HELP);
            Ok(true)
        }
        Asked::Store(folder) => store(&folder).map(|()| true),
        Asked::Run {
            until,
            seed,
            program,
        } => run(&until, seed, &program).inspect_err(|_| println!("0 passed, 1 failed")),
    };
    match done {
        Ok(true) => ExitCode::SUCCESS,
        Ok(false) => ExitCode::from(1),
        Err(wrong) => {
            eprintln!("compare-calls: {wrong}");
            ExitCode::from(1)
        }
    }
}

/// Write the files of the program's own run.
fn store(folder: &Path) -> Result<(), String> {
    let stored = stored::stored();
    for (name, bytes) in [("stdin", stored.stdin), ("stdout", stored.stdout)] {
        let path = folder.join(name);
        let written = std::fs::write(&path, bytes);
        written.map_err(|error| format!("cannot write {}: {error}", path.display()))?;
    }
    Ok(())
}

/// Run lists and report. Whether nothing failed.
fn run(until: &Until, seed: u64, path: &Path) -> Result<bool, String> {
    let started = Instant::now();
    let mut program = Program::start(path)?;
    let mut tally = Tally::default();
    let mut failed = 0;
    let ran = run_lists(until, seed, &mut program, &mut tally, &mut failed);
    if let Err(wrong) = ran.and_then(|()| program.finish()) {
        println!("seed {seed}, after {} calls: {wrong}", tally.calls);
        failed += 1;
    }
    let (turned_down, not_turned_down) = malformed::check(path)?;
    let (met, missed) = tally.report();
    println!("malformed inputs turned down: {turned_down}");
    println!("seed {seed}, {:.1} s", started.elapsed().as_secs_f64());
    let passed = tally.lists + turned_down + met;
    failed += not_turned_down + missed;
    println!("{passed} passed, {failed} failed");
    Ok(failed == 0)
}

/// Run one list after the other, and count those without a difference and those with one.
fn run_lists(
    until: &Until,
    seed: u64,
    program: &mut Program,
    tally: &mut Tally,
    failed: &mut u64,
) -> Result<(), String> {
    let started = Instant::now();
    let mut session = first_call(program, tally)?;
    let mut number = match until {
        Until::OnlyList(only) => *only,
        Until::Time(_) | Until::Calls(_) => 0,
    };
    loop {
        match run_list(&list(seed, number), program, &mut session, tally)? {
            None => tally.lists += 1,
            Some((call, what)) => {
                println!("seed {seed}, list {number}, call {call}: {what}");
                *failed += 1;
            }
        }
        number += 1;
        let is_done = match until {
            Until::Time(limit) => started.elapsed() >= *limit,
            Until::Calls(limit) => tally.calls >= *limit,
            Until::OnlyList(_) => true,
        };
        if is_done || *failed == FAILED_LISTS {
            return Ok(());
        }
    }
}

/// A close before the first opening. It is refused, and shows the idle processor.
fn first_call(program: &mut Program, tally: &mut Tally) -> Result<Session, String> {
    let first = Placed {
        call: Call::Close { lent: CLOSE_BYTES },
        shown: true,
        around: 0xff,
        fill: 0xa5,
        starts: (0, 0),
    };
    program.send(first.bytes())?;
    let outcome = program.outcome(CLOSE_BYTES)?;
    let mut session = Session::new(outcome.processor());
    session.check(&first, None, &outcome, tally)?;
    Ok(session)
}

/// Run a list. The number of its first call with a difference, counted from 1, and what differs.
fn run_list(
    list: &List,
    program: &mut Program,
    session: &mut Session,
    tally: &mut Tally,
) -> Result<Option<(usize, String)>, String> {
    program.send(list.calls.iter().flat_map(Placed::bytes).collect())?;
    let mut difference = None;
    for (place, placed) in list.calls.iter().enumerate() {
        let outcome = program.outcome(placed.call.lent())?;
        let checked = session.check(placed, list.whole.as_ref(), &outcome, tally);
        if let Err(what) = checked {
            let call = brief(&placed.call);
            difference = difference.or(Some((place + 1, format!("{call}: {what}"))));
        }
    }
    session.end_list();
    Ok(difference)
}

/// A call in a few words.
fn brief(call: &Call) -> String {
    match call {
        Call::Open { mode, azimuth } => format!("open in mode {mode} at azimuth {azimuth}"),
        Call::Take {
            flags,
            values,
            lent,
        } => {
            let (flags, values) = (flags.len(), values.len());
            format!("take of {flags} flags and {values} values with {lent} bytes")
        }
        Call::Close { lent } => format!("close with {lent} bytes"),
    }
}
