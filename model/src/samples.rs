//! Samples and the trace that they make.
//! A trace never holds a bad flag byte: joining one stops the program, so callers refuse it first.

/// "Ticks count from 0 at opening." Signed, so that t−2 can be asked for at tick 0.
pub type Tick = i64;

/// "Flag bits: 0 = A, sum video above threshold; 1 = P, rising slope; 2 = N, falling slope;
/// 3 = M, mainbeam."
pub const A: u8 = 1;
pub const P: u8 = 2;
pub const N: u8 = 4;
pub const M: u8 = 8;

/// "P with N is bad, as are bits 4 to 7."
pub fn is_bad(flag: u8) -> bool {
    (flag & P != 0 && flag & N != 0) || flag & 0xf0 != 0
}

/// "A sample is a flag byte and a monopulse value (0 to 255)." A trace is one sample a tick.
#[derive(Clone, Debug, Default, PartialEq, Eq)]
pub struct Trace {
    flags: Vec<u8>,
    values: Vec<u8>,
}

impl Trace {
    /// The trace of these flags and values.
    pub fn new(flags: &[u8], values: &[u8]) -> Trace {
        let mut trace = Trace::default();
        trace.join(flags, values);
        trace
    }

    /// "Joined trace: the flags and the values of the accepted pieces, each end to end in call
    /// order."
    pub fn join(&mut self, flags: &[u8], values: &[u8]) {
        assert_eq!(flags.len(), values.len(), "flags and values differ");
        assert!(!flags.iter().copied().any(is_bad), "a bad flag byte");
        self.flags.extend_from_slice(flags);
        self.values.extend_from_slice(values);
    }

    /// The first ticks of the trace.
    pub fn prefix(&self, ticks: usize) -> Trace {
        Trace::new(&self.flags[..ticks], &self.values[..ticks])
    }

    /// The number of ticks.
    pub fn ticks(&self) -> Tick {
        self.flags.len() as Tick
    }

    /// The flag bytes, tick by tick.
    pub fn flags(&self) -> &[u8] {
        &self.flags
    }

    /// The monopulse values, tick by tick.
    pub fn values(&self) -> &[u8] {
        &self.values
    }

    /// A(t): sum video above threshold.
    pub fn a(&self, t: Tick) -> bool {
        within(&self.flags, t) & A != 0
    }

    /// P(t): rising slope.
    pub fn p(&self, t: Tick) -> bool {
        within(&self.flags, t) & P != 0
    }

    /// N(t): falling slope.
    pub fn n(&self, t: Tick) -> bool {
        within(&self.flags, t) & N != 0
    }

    /// M(t): mainbeam.
    pub fn m(&self, t: Tick) -> bool {
        within(&self.flags, t) & M != 0
    }

    /// The monopulse value at t.
    pub fn value(&self, t: Tick) -> u8 {
        within(&self.values, t)
    }
}

/// "Samples outside the trace count as all zero."
fn within(bytes: &[u8], t: Tick) -> u8 {
    if t < 0 || t >= bytes.len() as Tick {
        return 0;
    }
    bytes[t as usize]
}
