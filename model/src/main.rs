//! The command line program of the model.

mod command;

use command::Command;
use model::compare::{compare, inputs::Input, Until};
use model::edges::{self, edges, Edge};
use model::frames::hexadecimal;
use model::generate::recording::recording;
use model::generate::{self, damage::damaged, input::input, length, random::Random};
use model::machine::machine_on;
use model::records::record;
use model::samples::Trace;
use model::statistics::statistics;
use model::survey::{refused_line, surveyed};
use std::io::{self, Read, Write};
use std::process::ExitCode;

fn main() -> ExitCode {
    let arguments: Vec<String> = std::env::args().skip(1).collect();
    let command = match command::parse(&arguments) {
        Ok(command) => command,
        Err(wrong) => {
            eprintln!("model: {wrong}; see model --help");
            return ExitCode::from(2);
        }
    };
    match carry_out(&command) {
        Ok(true) => ExitCode::SUCCESS,
        Ok(false) => ExitCode::from(1),
        Err(wrong) => {
            eprintln!("model: {wrong}");
            ExitCode::from(1)
        }
    }
}

/// Carry out a command; tell whether what it compared agrees.
fn carry_out(command: &Command) -> Result<bool, String> {
    match *command {
        Command::Help => print(command::help().as_bytes())?,
        Command::Survey { ref file } => print_survey(&read(file.as_deref())?)?,
        Command::Generate {
            seed,
            kind,
            sweeps,
            damage,
        } => {
            let mut random = Random::new(seed);
            let whole = input(kind, sweeps, length, &mut random);
            print_frames(whole, damage, random)?;
        }
        Command::Record {
            seed,
            scene,
            damage,
        } => {
            let mut random = Random::new(seed);
            let whole = recording(&scene, &mut random);
            print_frames(whole, damage, random)?;
        }
        Command::Trace { seed, kind, ticks } => {
            let trace = generate::trace(kind, ticks, &mut Random::new(seed));
            print(trace_lines(&trace).as_bytes())?;
        }
        Command::Stats { seed, sweeps } => print(stats_lines(seed, sweeps).as_bytes())?,
        Command::Compare {
            ref program,
            seed,
            until,
        } => return print_comparison(program, seed, until),
        Command::Input { seed, number } => print(&Input::new(seed, number).frames)?,
    }
    Ok(true)
}

/// Print what the survey program prints: the lines on standard output, and a refusal's place on
/// standard error.
fn print_survey(input: &[u8]) -> Result<(), String> {
    let surveyed = surveyed(input);
    print(surveyed.printed.as_bytes())?;
    if let Some(refused) = surveyed.refused {
        eprint!("{}", refused_line(&refused));
    }
    Ok(())
}

/// Print the frames, or damage and print them.
fn print_frames(whole: Vec<u8>, damage: bool, mut random: Random) -> Result<(), String> {
    if damage {
        print(&damaged(&whole, &mut random))
    } else {
        print(&whole)
    }
}

/// Compare the program with the model; tell whether nothing failed.
fn print_comparison(program: &str, seed: u64, until: Until) -> Result<bool, String> {
    let report = compare(program.as_ref(), seed, until)
        .map_err(|error| format!("cannot compare with {program}: {error}"))?;
    print(report.lines().as_bytes())?;
    Ok(report.is_good())
}

fn read(file: Option<&str>) -> Result<Vec<u8>, String> {
    let mut input = Vec::new();
    match file {
        Some(name) => std::fs::read(name).map_err(|error| format!("cannot read {name}: {error}")),
        None => io::stdin()
            .read_to_end(&mut input)
            .map(|_| input)
            .map_err(|error| format!("cannot read standard input: {error}")),
    }
}

/// Print the bytes. A reader that wants no more of them is no error.
fn print(bytes: &[u8]) -> Result<(), String> {
    let mut standard_output = io::stdout().lock();
    let printed = standard_output
        .write_all(bytes)
        .and_then(|()| standard_output.flush());
    match printed {
        Err(error) if error.kind() != io::ErrorKind::BrokenPipe => {
            Err(format!("cannot write: {error}"))
        }
        _ => Ok(()),
    }
}

/// The trace and what the rules give for it.
fn trace_lines(trace: &Trace) -> String {
    let edges = edges(trace);
    let machine = machine_on(&edges);
    let totals = machine.totals.in_order().map(|total| total.to_string());
    let edge_words: Vec<String> = edges.iter().map(edge_word).collect();
    let mut lines = line("flags", &[hexadecimal(trace.flags())]);
    lines += &line("values", &[hexadecimal(trace.values())]);
    lines += &line("edges", &edge_words);
    for reply in &machine.replies {
        lines += &line("record", &[hexadecimal(&record(reply))]);
    }
    lines += &line("totals", &totals);
    lines
}

fn edge_word(edge: &Edge) -> String {
    let kind = match edge.kind {
        edges::Kind::Actual => 'a',
        edges::Kind::Pseudo => 'p',
        edges::Kind::Extra => 'x',
    };
    format!("{}:{kind}", edge.tick)
}

/// A line of words, without a space at its end.
fn line(name: &str, words: &[String]) -> String {
    let joined = format!("{name} {}", words.join(" "));
    format!("{}\n", joined.trim_end())
}

fn stats_lines(seed: u64, sweeps: u64) -> String {
    let statistics = statistics(seed, sweeps);
    let lines = statistics
        .counts()
        .iter()
        .map(|(name, count)| format!("{name}: {count}\n"));
    lines.collect()
}
