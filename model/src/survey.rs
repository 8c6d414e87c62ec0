//! What the survey program prints for a whole input.
//! A take prints only the replies that are due, and a reply that is due is final. So the replies
//! of a sweep's takes are computed and printed together when the sweep ends; the lines and their
//! order are the same as from one take at a time, which a test confirms.

use crate::frames::{self, Frame, LINE_DIGITS};
use crate::records::{Record, RECORD_BYTES};
use crate::refusals::Refusal;
use crate::sweep::{Processor, CLOSE_BYTES};

/// What a survey prints, and its refusal, if one ended it.
#[derive(Clone, Debug, PartialEq, Eq)]
pub struct Surveyed {
    pub printed: String,
    pub refused: Option<Refused>,
}

/// A refusal, and how many bytes of the input had been read when it was certain.
#[derive(Clone, Copy, Debug, PartialEq, Eq)]
pub struct Refused {
    pub refusal: Refusal,
    pub byte: usize,
}

/// What the survey prints for an input.
pub fn survey(input: &[u8]) -> String {
    surveyed(input).printed
}

/// "The survey program reads standard input, prints, and stops at end of input or at the first
/// refusal."
pub fn surveyed(input: &[u8]) -> Surveyed {
    let mut survey = Survey {
        processor: Processor::Idle,
        printed: String::new(),
    };
    let mut start = 0;
    let mut refused = None;
    for line in frames::lines(input) {
        let outcome = frames::read(line).and_then(|frame| survey.carry_out(&frame));
        if let Err(refusal) = outcome {
            let byte = start + certain_after(line);
            refused = Some(Refused { refusal, byte });
            break;
        }
        start += line.len();
    }
    survey.print_due();
    if let Some(Refused { refusal, .. }) = refused {
        survey.printed += &frames::refusal_line(refusal);
    }
    Surveyed {
        printed: survey.printed,
        refused,
    }
}

/// How many bytes of a refused line make its refusal certain: all of them, or one more than the
/// most digits, without a newline among them.
fn certain_after(line: &[u8]) -> usize {
    line.len().min(LINE_DIGITS + 1)
}

/// The line on standard error that says what was refused, and where.
pub fn refused_line(refused: &Refused) -> String {
    let number = refused.refusal.number();
    format!("refusal {number} at byte {}\n", refused.byte)
}

struct Survey {
    processor: Processor,
    printed: String,
}

impl Survey {
    /// Carry out one frame. "`01` during a sweep starts afresh." A take is lent a buffer that
    /// suffices.
    fn carry_out(&mut self, frame: &Frame) -> Result<(), Refusal> {
        match frame {
            Frame::Open { mode, azimuth } => {
                let opened = Processor::open(*mode, *azimuth)?;
                self.print_due();
                self.processor = opened;
                Ok(())
            }
            Frame::Take { flags, values } => self.processor.join(flags, values, usize::MAX),
            Frame::Close => self.close(),
        }
    }

    /// Print the rest of the replies, then the totals.
    fn close(&mut self) -> Result<(), Refusal> {
        self.print_due();
        let mut buffer = [0; CLOSE_BYTES];
        let closed = self.processor.close(&mut buffer)?;
        let (records, _) = buffer.as_chunks::<RECORD_BYTES>();
        self.print_replies(&records[..closed.written]);
        self.printed += &frames::totals_line(&closed.totals);
        Ok(())
    }

    /// Print the replies that the takes so far make due.
    fn print_due(&mut self) {
        let records = self.processor.hand_out();
        self.print_replies(&records);
    }

    fn print_replies(&mut self, records: &[Record]) {
        for record in records {
            self.printed += &frames::reply_line(record);
        }
    }
}
