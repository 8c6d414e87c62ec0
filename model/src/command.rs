//! The command line: what is asked for, or what is wrong with it.

use model::compare::Until;
use model::generate::recording::{Scene, SCENES};
use model::generate::{Kind, KINDS};
use model::sweep::SWEEP_TICKS;
use std::collections::BTreeMap;

/// One command.
#[derive(Debug)]
pub enum Command {
    Help,
    Survey {
        file: Option<String>,
    },
    Generate {
        seed: u64,
        kind: Kind,
        sweeps: u64,
        damage: bool,
    },
    Record {
        seed: u64,
        scene: Scene,
        damage: bool,
    },
    Trace {
        seed: u64,
        kind: Kind,
        ticks: usize,
    },
    Stats {
        seed: u64,
        sweeps: u64,
    },
    Compare {
        program: String,
        seed: u64,
        until: Until,
    },
    Input {
        seed: u64,
        number: u64,
    },
}

/// The help text.
pub fn help() -> String {
    HELP.replace("KINDS", &names(&KINDS))
        .replace("SCENES", &names(&SCENES))
}

/// The names in a table, in a line.
fn names<T>(table: &[(&str, T)]) -> String {
    let names: Vec<&str> = table.iter().map(|(name, _)| *name).collect();
    names.join(" ")
}

const HELP: &str = "\
The separate model of the ATCRBS reply processor.

  model survey [FILE]
      Read frames from FILE or standard input and print what the survey program prints: its
      lines, and at a refusal 'refusal K at byte B' on standard error.
  model generate --seed S [--kind K] [--sweeps N] [--damage]
      Print the frames of N sweeps (1 if not given); --damage damages the input.
  model record --seed S --scene C [--damage]
      Print the frames of a recording: sweeps of one antenna over the same aircraft.
  model trace --seed S [--kind K] --ticks N
      Print one trace of 0 to 32768 ticks and what the rules give for it, as lines of words:
        flags HEX        values HEX        (without HEX for 0 ticks)
        edges T:KIND ..  (KIND is a for actual, p for pseudo, x for extra)
        record HEX       (one line a reply, in order of F1)
        totals FOUND REPLIES SIDELOBE GARBLED LOST PHANTOMS
  model stats --seed S --sweeps N
      Print how often each outcome occurs over N mixed sweeps.
  model compare --program PATH --seed S (--sweeps N | --seconds N)
      Compare the survey program with the model on at least N sweeps, or for N seconds, and print
      what occurred. A difference ends it; the input is then kept in a file.
  model input --seed S --number N
      Print input N of the comparison with this seed.
  model --help
      Print this text.

Kinds: KINDS
Scenes: SCENES
The same seed always gives the same output. Exit status: 0 done, 1 a file cannot be read, the
output cannot be written or a comparison failed, 2 wrong usage.
";

/// The command of these arguments, or what is wrong with them.
pub fn parse(arguments: &[String]) -> Result<Command, String> {
    let (name, rest) = arguments
        .split_first()
        .ok_or("a command is missing: survey, generate, record, trace, stats, compare or input")?;
    if arguments.iter().any(|argument| argument == "--help") {
        return Ok(Command::Help);
    }
    match name.as_str() {
        "survey" => survey(rest),
        "generate" => generate(rest),
        "record" => record(rest),
        "trace" => trace(rest),
        "stats" => stats(rest),
        "compare" => compare(rest),
        "input" => input(rest),
        _ => Err(format!("unknown command '{name}'")),
    }
}

fn survey(arguments: &[String]) -> Result<Command, String> {
    match arguments {
        [] => Ok(Command::Survey { file: None }),
        [option, ..] if option.starts_with("--") => Err(format!("survey has no option '{option}'")),
        [file] => Ok(Command::Survey {
            file: Some(file.clone()),
        }),
        [_, second, ..] => Err(format!("survey reads one file; '{second}' is one too many")),
    }
}

fn generate(arguments: &[String]) -> Result<Command, String> {
    let options = Options::read(arguments, &["--seed", "--kind", "--sweeps", "--damage"])?;
    Ok(Command::Generate {
        seed: options.needed("--seed")?,
        kind: options.kind()?,
        sweeps: options.number("--sweeps")?.unwrap_or(1),
        damage: options.given("--damage"),
    })
}

fn record(arguments: &[String]) -> Result<Command, String> {
    let options = Options::read(arguments, &["--seed", "--scene", "--damage"])?;
    let name = options.text("--scene")?;
    Ok(Command::Record {
        seed: options.needed("--seed")?,
        scene: named(&SCENES, "scene", &name)?,
        damage: options.given("--damage"),
    })
}

fn trace(arguments: &[String]) -> Result<Command, String> {
    let options = Options::read(arguments, &["--seed", "--kind", "--ticks"])?;
    let ticks = options.needed("--ticks")?;
    if ticks > SWEEP_TICKS as u64 {
        return Err(format!("--ticks {ticks} is over {SWEEP_TICKS}"));
    }
    Ok(Command::Trace {
        seed: options.needed("--seed")?,
        kind: options.kind()?,
        ticks: ticks as usize,
    })
}

fn stats(arguments: &[String]) -> Result<Command, String> {
    let options = Options::read(arguments, &["--seed", "--sweeps"])?;
    Ok(Command::Stats {
        seed: options.needed("--seed")?,
        sweeps: options.needed("--sweeps")?,
    })
}

fn compare(arguments: &[String]) -> Result<Command, String> {
    let options = Options::read(arguments, &["--program", "--seed", "--sweeps", "--seconds"])?;
    let until = match (options.number("--sweeps")?, options.number("--seconds")?) {
        (Some(sweeps), None) => Until::Sweeps(sweeps),
        (None, Some(seconds)) => Until::Seconds(seconds),
        _ => return Err("compare needs --sweeps or --seconds, and not both".to_string()),
    };
    Ok(Command::Compare {
        program: options.text("--program")?,
        seed: options.needed("--seed")?,
        until,
    })
}

fn input(arguments: &[String]) -> Result<Command, String> {
    let options = Options::read(arguments, &["--seed", "--number"])?;
    Ok(Command::Input {
        seed: options.needed("--seed")?,
        number: options.needed("--number")?,
    })
}

/// The options that were given, each with its value; --damage has none.
struct Options(BTreeMap<String, String>);

impl Options {
    fn read(arguments: &[String], allowed: &[&str]) -> Result<Options, String> {
        let mut options = BTreeMap::new();
        let mut rest = arguments.iter();
        while let Some(option) = rest.next() {
            if !allowed.contains(&option.as_str()) {
                return Err(format!("'{option}' is not one of {}", allowed.join(" ")));
            }
            let value = if option == "--damage" {
                String::new()
            } else {
                let value = rest.next();
                value.ok_or(format!("{option} needs a value"))?.clone()
            };
            if options.insert(option.clone(), value).is_some() {
                return Err(format!("{option} is given twice"));
            }
        }
        Ok(Options(options))
    }

    fn given(&self, option: &str) -> bool {
        self.0.contains_key(option)
    }

    fn text(&self, option: &str) -> Result<String, String> {
        let value = self.0.get(option);
        value.cloned().ok_or(format!("{option} is missing"))
    }

    fn number(&self, option: &str) -> Result<Option<u64>, String> {
        let Some(value) = self.0.get(option) else {
            return Ok(None);
        };
        match value.parse() {
            Ok(number) => Ok(Some(number)),
            Err(_) => Err(format!(
                "{option} needs a number from 0 to {}, not '{value}'",
                u64::MAX
            )),
        }
    }

    fn needed(&self, option: &str) -> Result<u64, String> {
        self.number(option)?.ok_or(format!("{option} is missing"))
    }

    fn kind(&self) -> Result<Kind, String> {
        match self.0.get("--kind") {
            Some(value) => named(&KINDS, "kind", value),
            None => Ok(Kind::Mixed),
        }
    }
}

/// What a table has under this name.
fn named<T: Copy>(table: &[(&str, T)], what: &str, name: &str) -> Result<T, String> {
    let known = table.iter().find(|(other, _)| *other == name);
    let (_, found) = known.ok_or(format!("unknown {what} '{name}'"))?;
    Ok(*found)
}
