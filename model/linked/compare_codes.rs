//! The proved library's altitude, identity and writer against the model's. The command
//! model/compare-codes builds the program and starts it with a seed and with how many random code
//! words get every confidence, or the word 'every' for all code words.

use model::codes::{self, Altitude, Identity, Meaning};
use model::generate::random::Random;
use std::process::ExitCode;
use std::sync::atomic::{AtomicUsize, Ordering};
use std::thread;
use std::time::Instant;

/// Every bit has confidence 1.
const SURE: u16 = 0x7fff;

/// The eleven bits of an altitude, not taken from the model.
const ELEVEN: u16 = 0x1ebf;

/// How much is compared.
const NUMBERS_A_PART: usize = 1_000;
const RANDOM_NUMBERS: usize = 100_000;
const WORDS_A_MODE: usize = 300;

/// So many differences are printed.
const PRINTED: usize = 5;

const THREADS: usize = 2;

/// The library's functions. Answers are numbers: an altitude is feet, 1 for unsure or 2 for no
/// altitude; an identity has three bits for each digit, or is 4096 for unsure; no code is -1, and
/// so is the meaning in a mode that has none.
mod library {
    unsafe extern "C" {
        pub safe fn altitude_number(code: u16, confidence: u16) -> i32;
        pub safe fn identity_number(code: u16, confidence: u16) -> i32;
        pub safe fn meaning_number(mode: u8, code: u16, confidence: u16) -> i32;
        pub safe fn code_number(feet: i32) -> i32;
    }
}

/// The model's answers as the library's numbers.
fn altitude_number(altitude: Altitude) -> i32 {
    match altitude {
        Altitude::Feet(feet) => feet,
        Altitude::Unsure => 1,
        Altitude::NoAltitude => 2,
    }
}

fn identity_number(identity: Identity) -> i32 {
    match identity {
        Identity::Digits(digits) => digits
            .iter()
            .fold(0, |number, &digit| 8 * number + i32::from(digit)),
        Identity::Unsure => 4_096,
    }
}

fn meaning_number(meaning: Meaning) -> i32 {
    match meaning {
        Meaning::Altitude(altitude) => altitude_number(altitude),
        Meaning::Identity(identity) => identity_number(identity),
        Meaning::Neither => -1,
    }
}

/// What the model may answer. Each must occur.
#[derive(Clone, Copy)]
enum Outcome {
    Feet,
    Unsure,
    D1Set,
    OtherGroup,
    Below,
    Identity,
    UnsureIdentity,
    Code,
    NoCode,
}

/// The names of the outcomes, in their order.
const OUTCOMES: [&str; 9] = [
    "feet",
    "unsure altitude",
    "no altitude: D1 set",
    "no altitude: another C group",
    "no altitude: below -1,000 ft",
    "identity",
    "unsure identity",
    "code",
    "no code",
];

fn altitude_outcome(altitude: Altitude, code: u16) -> Outcome {
    let group = code & (codes::C1 | codes::C2 | codes::C4);
    match altitude {
        Altitude::Feet(_) => Outcome::Feet,
        Altitude::Unsure => Outcome::Unsure,
        Altitude::NoAltitude if code & codes::D1 != 0 => Outcome::D1Set,
        Altitude::NoAltitude if codes::C_GROUPS.contains(&group) => Outcome::Below,
        Altitude::NoAltitude => Outcome::OtherGroup,
    }
}

/// What was compared: how many answers, how often each outcome occurred, the first difference.
#[derive(Default)]
struct Tally {
    answers: u64,
    occurred: [u64; OUTCOMES.len()],
    difference: Option<String>,
}

impl Tally {
    fn occur(&mut self, outcome: Outcome) {
        self.occurred[outcome as usize] += 1;
    }

    /// Compare an answer to a call, which is put into words only for a difference.
    fn compare(&mut self, model: i32, library: i32, call: impl FnOnce() -> String) {
        self.answers += 1;
        if model != library && self.difference.is_none() {
            let call = call();
            self.difference = Some(format!("{call}: model {model}, library {library}"));
        }
    }

    fn altitude(&mut self, code: u16, confidence: u16) {
        let altitude = codes::altitude(code, confidence);
        self.occur(altitude_outcome(altitude, code));
        let library = library::altitude_number(code, confidence);
        self.compare(altitude_number(altitude), library, || {
            format!("altitude_number(code {code:04x}, confidence {confidence:04x})")
        });
    }

    fn identity(&mut self, code: u16, confidence: u16) {
        let identity = codes::identity(code, confidence);
        self.occur(match identity {
            Identity::Digits(_) => Outcome::Identity,
            Identity::Unsure => Outcome::UnsureIdentity,
        });
        let library = library::identity_number(code, confidence);
        self.compare(identity_number(identity), library, || {
            format!("identity_number(code {code:04x}, confidence {confidence:04x})")
        });
    }

    fn meaning(&mut self, mode: u8, code: u16, confidence: u16) {
        let meaning = codes::meaning(mode, code, confidence);
        let library = library::meaning_number(mode, code, confidence);
        self.compare(meaning_number(meaning), library, || {
            format!("meaning_number(mode {mode:02x}, code {code:04x}, confidence {confidence:04x})")
        });
    }

    fn code(&mut self, feet: i32) {
        let code = codes::code_of(feet);
        self.occur(code.map_or(Outcome::NoCode, |_| Outcome::Code));
        let library = library::code_number(feet);
        self.compare(code.map_or(-1, i32::from), library, || {
            format!("code_number(feet {feet:08x}, which is {feet})")
        });
    }
}

/// A part of the comparison, which passes or fails as a whole.
enum Part {
    /// The 256 code words with this high byte, where at most one of the eleven bits is unsure.
    Words { high: u8 },
    /// A code with every confidence.
    Confidences { code: u16 },
    /// Numbers of feet for the writer.
    Numbers(Vec<i32>),
    /// A mode with pairs of code and confidence.
    Mode { mode: u8, words: Vec<(u16, u16)> },
}

impl Part {
    /// The name of the parts of this kind.
    fn name(&self) -> String {
        match self {
            Part::Words { .. } => "code words with at most one bit unsure, 256 a part".to_string(),
            Part::Confidences { .. } => "code words with every confidence".to_string(),
            Part::Numbers(_) => format!("numbers of feet, {NUMBERS_A_PART} a part"),
            Part::Mode { .. } => format!("modes with {WORDS_A_MODE} code words"),
        }
    }

    fn compared(&self) -> Tally {
        let mut tally = Tally::default();
        match self {
            Part::Words { high } => compare_words(*high, &mut tally),
            Part::Confidences { code } => compare_reading(*code, 0..=0xffff, &mut tally),
            Part::Numbers(numbers) => numbers.iter().for_each(|&feet| tally.code(feet)),
            Part::Mode { mode, words } => {
                for &(code, confidence) in words {
                    tally.meaning(*mode, code, confidence);
                }
            }
        }
        tally
    }
}

/// Each way to read the code words; feet are written back.
fn compare_words(high: u8, tally: &mut Tally) {
    let unsure = |confidence: &u16| (ELEVEN & !confidence).count_ones();
    let confidences = (0..=0xffff).filter(|confidence| unsure(confidence) <= 1);
    let confidences: Vec<u16> = confidences.collect();
    for low in 0..=255 {
        let code = u16::from_be_bytes([high, low]);
        compare_reading(code, confidences.iter().copied(), tally);
        tally.meaning(0, code, SURE);
        if let Altitude::Feet(feet) = codes::altitude(code, SURE) {
            tally.code(feet);
        }
    }
}

/// Each way to read a code word, with each of these confidences.
fn compare_reading(code: u16, confidences: impl Iterator<Item = u16>, tally: &mut Tally) {
    for confidence in confidences {
        tally.altitude(code, confidence);
        tally.identity(code, confidence);
        for mode in 1..=3 {
            tally.meaning(mode, code, confidence);
        }
    }
}

/// All parts, with so many random code words that get every confidence, or with all code words.
fn parts(seed: u64, codes: Option<usize>) -> Vec<Part> {
    let mut random = Random::new(seed);
    let codes: Vec<u16> = match codes {
        Some(count) => (0..count).map(|_| random_code(&mut random)).collect(),
        None => (0..=0xffff).collect(),
    };
    let mut parts: Vec<Part> = (0..=255).map(|high| Part::Words { high }).collect();
    parts.extend(codes.into_iter().map(|code| Part::Confidences { code }));
    let numbers = numbers(&mut random);
    let pieces = numbers.chunks(NUMBERS_A_PART);
    parts.extend(pieces.map(|piece| Part::Numbers(piece.to_vec())));
    parts.extend((0..=255).map(|mode| {
        Part::Mode {
            mode,
            words: (0..WORDS_A_MODE)
                .map(|_| random_word(&mut random))
                .collect(),
        }
    }));
    parts
}

/// Half of the codes are those of altitudes, and some are those below -1,000 ft, with random other
/// bits; the rest are random.
fn random_code(random: &mut Random) -> u16 {
    let bits = random_bits(random);
    let others = bits & !codes::ALTITUDE_BITS;
    match random.place(20) {
        0 => others | random.pick(&[codes::C4, codes::C2 | codes::C4]),
        1..=9 => bits,
        _ => others | written(random),
    }
}

/// The code of a random altitude.
fn written(random: &mut Random) -> u16 {
    let feet = 100 * random.within(-10..=1_267) as i32;
    codes::code_of(feet).expect("an altitude with a code")
}

fn random_bits(random: &mut Random) -> u16 {
    random.within(0..=0xffff) as u16
}

/// A code and a confidence: sure, sure but for one bit, or random.
fn random_word(random: &mut Random) -> (u16, u16) {
    let confidence = match random.place(3) {
        0 => SURE,
        1 => SURE & !(1 << random.place(15)),
        _ => random_bits(random),
    };
    (random_code(random), confidence)
}

/// Numbers for the writer: all about the altitudes, the ends of the type, and random ones, of which
/// half are multiples of 100.
fn numbers(random: &mut Random) -> Vec<i32> {
    let mut numbers: Vec<i32> = (-2_000..=130_000).collect();
    numbers.extend([i32::MIN, i32::MIN + 1, i32::MAX - 1, i32::MAX]);
    let (lowest, highest) = (i64::from(i32::MIN), i64::from(i32::MAX));
    for _ in 0..RANDOM_NUMBERS / 2 {
        numbers.push(random.within(lowest..=highest) as i32);
        numbers.push(100 * random.within(lowest / 100..=highest / 100) as i32);
    }
    numbers
}

/// The tallies of the parts, in their order.
fn compared(parts: &[Part]) -> Vec<Tally> {
    let next = AtomicUsize::new(0);
    let work = || {
        let mut done = Vec::new();
        loop {
            let place = next.fetch_add(1, Ordering::Relaxed);
            let Some(part) = parts.get(place) else {
                return done;
            };
            done.push((place, part.compared()));
        }
    };
    let mut done: Vec<(usize, Tally)> = thread::scope(|scope| {
        let threads: Vec<_> = (0..THREADS).map(|_| scope.spawn(work)).collect();
        let ended = threads.into_iter().map(|thread| thread.join());
        ended.flat_map(|done| done.expect("no panic")).collect()
    });
    done.sort_by_key(|(place, _)| *place);
    done.into_iter().map(|(_, tally)| tally).collect()
}

/// For each kind of part, how many are alike and how many differ.
fn print_kinds(parts: &[Part], tallies: &[Tally]) {
    let all: Vec<(&Part, &Tally)> = parts.iter().zip(tallies).collect();
    for kind in all.chunk_by(|one, next| one.0.name() == next.0.name()) {
        let name = kind[0].0.name();
        let different = kind.iter().filter(|(_, tally)| tally.difference.is_some());
        let different = different.count();
        let alike = kind.len() - different;
        println!("{name}: {alike} alike, {different} different");
    }
}

/// How often each outcome occurred. Returns how many never did.
fn print_outcomes(tallies: &[Tally]) -> usize {
    let mut missing = 0;
    for (outcome, name) in OUTCOMES.iter().enumerate() {
        let occurred: u64 = tallies.iter().map(|tally| tally.occurred[outcome]).sum();
        println!("{name}: {occurred}");
        if occurred == 0 {
            println!("never occurred: {name}");
            missing += 1;
        }
    }
    missing
}

/// The first differences. Returns how many parts have one.
fn print_differences(tallies: &[Tally]) -> usize {
    let differences = tallies.iter().filter_map(|tally| tally.difference.as_ref());
    for difference in differences.clone().take(PRINTED) {
        println!("difference: {difference}");
    }
    differences.count()
}

/// Compare and report. Returns whether nothing failed.
fn run(seed: u64, codes: Option<usize>) -> bool {
    let started = Instant::now();
    let parts = parts(seed, codes);
    let tallies = compared(&parts);
    print_kinds(&parts, &tallies);
    let missing = print_outcomes(&tallies);
    let answers: u64 = tallies.iter().map(|tally| tally.answers).sum();
    let seconds = started.elapsed().as_secs_f64();
    println!("seed {seed}, {answers} answers, {seconds:.1} s");
    let different = print_differences(&tallies);
    let passed = parts.len() - different;
    let failed = different + missing;
    println!("{passed} passed, {failed} failed");
    failed == 0
}

/// The seed, and how many random code words; none are all code words.
fn asked(arguments: &[String]) -> Option<(u64, Option<usize>)> {
    let [seed, codes] = arguments else {
        return None;
    };
    let codes = match codes.as_str() {
        "every" => None,
        count => Some(count.parse().ok()?),
    };
    Some((seed.parse().ok()?, codes))
}

fn main() -> ExitCode {
    let arguments: Vec<String> = std::env::args().skip(1).collect();
    let Some((seed, codes)) = asked(&arguments) else {
        eprintln!("compare_codes: a seed is needed, and a number of code words or 'every'");
        return ExitCode::from(2);
    };
    ExitCode::from(u8::from(!run(seed, codes)))
}
