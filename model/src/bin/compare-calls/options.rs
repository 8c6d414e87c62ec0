//! The command line: what is asked for, or what is wrong with it.

use std::path::PathBuf;
use std::time::Duration;

pub const HELP: &str = "\
Compares the operations open, take and close with the model, on lists of calls that the program
crates/test_calls carries out: answers, totals, lent buffers with their tails, and processors.

  compare-calls --seconds N --seed S [--program PATH]
  compare-calls --calls N --seed S [--program PATH]
      Run lists for N seconds, or until N calls were made.
  compare-calls --list K --seed S [--program PATH]
      Run list K of the seed alone.
  compare-calls --store DIR
      Write the files stdin and stdout of the program's own run into DIR.

PATH is target/bin/test_calls in the repository if it is not given; 'tools/built test_calls' builds it.
The last line is 'N passed, M failed': lists, and things that a run of 100000 calls must meet.
Exit status: 0 nothing failed, 1 something did, 2 wrong usage.
";

/// When a run ends.
pub enum Until {
    Time(Duration),
    Calls(u64),
    OnlyList(u64),
}

pub enum Asked {
    Help,
    Store(PathBuf),
    Run {
        until: Until,
        seed: u64,
        program: PathBuf,
    },
}

/// What the arguments ask for. Without --program it is this one.
pub fn parse(arguments: &[String], program: PathBuf) -> Result<Asked, String> {
    if arguments.iter().any(|argument| argument == "--help") {
        return Ok(Asked::Help);
    }
    let (mut until, mut seed, mut program) = (None, None, program);
    for pair in arguments.chunks(2) {
        let [option, value] = pair else {
            return Err(format!("{} needs a value", pair[0]));
        };
        match option.as_str() {
            "--store" => return Ok(Asked::Store(PathBuf::from(value))),
            "--program" => program = PathBuf::from(value),
            "--seed" => seed = Some(number(option, value)?),
            "--calls" => until = Some(Until::Calls(number(option, value)?)),
            "--list" => until = Some(Until::OnlyList(number(option, value)?)),
            "--seconds" => {
                until = Some(Until::Time(Duration::from_secs(number(option, value)?)));
            }
            _ => return Err(format!("unknown option '{option}'")),
        }
    }
    Ok(Asked::Run {
        until: until.ok_or("--seconds, --calls or --list is missing")?,
        seed: seed.ok_or("--seed is missing")?,
        program,
    })
}

fn number(option: &str, value: &str) -> Result<u64, String> {
    let number = value.parse();
    number.map_err(|_| format!("{option} needs a number, not '{value}'"))
}
