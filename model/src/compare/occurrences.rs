//! What occurred in the compared inputs. A comparison in which something never occurred has not
//! tested it.

use super::inputs::{Feeding, Input, READ_BYTES};
use crate::frames::{lines, LINE_DIGITS};
use crate::refusals::Refusal;
use crate::statistics::Statistics;
use crate::survey::{Refused, Surveyed};

/// The bytes of a full line, with its newline.
const LINE_BYTES: usize = LINE_DIGITS + 1;

/// The refusals that frames can meet.
const REFUSALS: [Refusal; 7] = [
    Refusal::Mode,
    Refusal::Azimuth,
    Refusal::NoSweep,
    Refusal::SweepTooLong,
    Refusal::BadFlag,
    Refusal::BadLine,
    Refusal::BadFrame,
];

/// The totals of a printed `12` line, in order.
const TOTALS: [&str; 6] = [
    "found",
    "replies in totals",
    "sidelobe",
    "garbled",
    "lost",
    "phantoms",
];

/// Something that a printed record may say, by its flags, N and code.
type Property = fn(u64, u64, u64) -> bool;

const PROPERTIES: [(&str, Property); 6] = [
    ("military", |flags, _, _| flags & 8 != 0),
    ("reference F2", |flags, _, _| flags & 2 != 0),
    ("reference without M", |flags, _, _| flags & 4 != 0),
    ("N = 1", |_, n, _| n == 1),
    ("N = 16", |_, n, _| n == 16),
    ("SPI", |_, _, code| code & 0x4000 != 0),
];

/// Something that a line refused with 9 may be, up to the byte that made it certain.
type Fault = fn(&[u8]) -> bool;

const FAULTS: [(&str, Fault); 5] = [
    ("empty line", |line| line == b"\n"),
    ("too long", |line| line.len() == LINE_BYTES && !ended(line)),
    ("odd", |line| ended(line) && line.len() % 2 == 0),
    ("another character", |line| line.iter().any(another)),
    ("no final newline", |line| {
        line.len() < LINE_BYTES && !ended(line)
    }),
];

fn ended(line: &[u8]) -> bool {
    line.ends_with(b"\n")
}

fn another(byte: &u8) -> bool {
    !matches!(byte, b'0'..=b'9' | b'a'..=b'f' | b'\n')
}

/// Named counts, and on which bytes of a full line the end of a read has fallen.
#[derive(Clone, Debug)]
pub struct Occurrences {
    statistics: Statistics,
    straddled: [bool; LINE_BYTES],
    sweeps: u64,
}

impl Occurrences {
    /// None yet.
    pub fn none() -> Occurrences {
        Occurrences {
            statistics: Statistics::default(),
            straddled: [false; LINE_BYTES],
            sweeps: 0,
        }
    }

    /// The sweeps opened so far.
    pub fn sweeps(&self) -> u64 {
        self.sweeps
    }

    /// Count one input and what the model's survey gives for it.
    pub fn add(&mut self, input: &Input, surveyed: &Surveyed) {
        let printed: Vec<&str> = surveyed.printed.lines().collect();
        self.statistics.add("inputs", 1);
        self.statistics.add("bytes in", input.frames.len());
        self.statistics.add("lines out", printed.len());
        self.add_sweeps(input, surveyed.refused);
        self.add_replies(&printed);
        self.add_totals(&printed);
        self.add_refusal(input, surveyed.refused);
        self.add_straddled(input);
    }

    fn add_sweeps(&mut self, input: &Input, refused: Option<Refused>) {
        let accepted = match refused {
            Some(refused) => &input.frames[..refused_start(&input.frames, refused)],
            None => &input.frames,
        };
        let opens: Vec<bool> = lines(accepted)
            .filter(|line| !line.starts_with(b"02"))
            .map(|line| line.starts_with(b"01"))
            .collect();
        let opened = opens.iter().filter(|&&open| open).count();
        let afresh = opens.windows(2).filter(|pair| pair[0] && pair[1]).count();
        let ended = refused.is_none() && opens.last() == Some(&true);
        self.sweeps += opened as u64;
        self.statistics.add("sweeps", opened);
        self.statistics.add("openings during a sweep", afresh);
        self.statistics
            .add("inputs that end during a sweep", usize::from(ended));
        let empty = usize::from(input.frames.is_empty());
        self.statistics.add("inputs without a line", empty);
    }

    fn add_replies(&mut self, printed: &[&str]) {
        self.statistics
            .add("replies", of_kind(printed, "11").count());
        for (name, holds) in PROPERTIES {
            let replies = of_kind(printed, "11").filter(|line| {
                let (code, flags, n) = (&line[6..10], &line[14..16], &line[16..18]);
                holds(number(flags), number(n), number(code))
            });
            self.statistics.add(name, replies.count());
        }
    }

    fn add_totals(&mut self, printed: &[&str]) {
        for (place, name) in TOTALS.iter().enumerate() {
            let digits = 2 + 4 * place..6 + 4 * place;
            let totals = of_kind(printed, "12").map(|line| number(&line[digits.clone()]));
            self.statistics.add(name, totals.sum::<u64>() as usize);
        }
    }

    fn add_refusal(&mut self, input: &Input, refused: Option<Refused>) {
        for refusal in REFUSALS {
            let met = refused.is_some_and(|refused| refused.refusal == refusal);
            let name = format!("refusal {}", refusal.number());
            self.statistics.add(&name, usize::from(met));
        }
        let bad_line = refused.filter(|refused| refused.refusal == Refusal::BadLine);
        let line = bad_line.map(|refused| {
            let start = refused_start(&input.frames, refused);
            &input.frames[start..refused.byte]
        });
        for (name, holds) in FAULTS {
            let met = usize::from(line.is_some_and(holds));
            self.statistics.add(&format!("refusal 9, {name}"), met);
        }
    }

    /// Where the end of a read falls in a full line, if the reads are as long as asked for.
    fn add_straddled(&mut self, input: &Input) {
        if input.feeding != Feeding::File {
            return;
        }
        for end in (READ_BYTES..input.frames.len()).step_by(READ_BYTES) {
            let before = line_start(&input.frames, end);
            let rest = &input.frames[before..];
            if lines(rest)
                .next()
                .is_some_and(|line| line.len() == LINE_BYTES)
            {
                self.straddled[end - before] = true;
            }
        }
    }

    /// A line of words for each count.
    pub fn lines(&self) -> String {
        let counts = self.statistics.counts().iter();
        let mut lines: String = counts
            .map(|(name, count)| format!("{name}: {count}\n"))
            .collect();
        let straddled = self.straddled.iter().filter(|&&met| met).count();
        lines +=
            &format!("bytes of a full line on which a read ended: {straddled} of {LINE_BYTES}\n");
        lines
    }

    /// What never occurred.
    pub fn missing(&self) -> Vec<String> {
        let counts = self.statistics.counts().iter();
        let mut missing: Vec<String> = counts
            .filter(|(_, count)| *count == 0)
            .map(|(name, _)| name.clone())
            .collect();
        if self.straddled.contains(&false) {
            missing.push("the end of a read on each byte of a full line".to_string());
        }
        missing
    }
}

/// The printed lines of one kind.
fn of_kind<'a>(printed: &'a [&str], kind: &'a str) -> impl Iterator<Item = &'a str> {
    let lines = printed.iter().copied();
    lines.filter(move |line| line.starts_with(kind))
}

fn number(digits: &str) -> u64 {
    u64::from_str_radix(digits, 16).expect("the model prints hexadecimal")
}

/// Where the refused line starts.
fn refused_start(frames: &[u8], refused: Refused) -> usize {
    line_start(frames, refused.byte - 1)
}

/// Where the line starts that has the byte at this place.
fn line_start(frames: &[u8], place: usize) -> usize {
    let newline = frames[..place].iter().rposition(|&byte| byte == b'\n');
    newline.map_or(0, |before| before + 1)
}
