//! The verdict on a case.

use crate::ffi::{tcpwit_check, tcpwit_check_two, Answer};
use crate::Rule;
use core::fmt;

/// The verdict on a case. It prints as `tcpwit check` prints it.
#[derive(Clone, Copy, Debug, PartialEq, Eq)]
pub enum Verdict {
    /// The witness explains the trace.
    Yes {
        /// How many event lines the trace has.
        lines: u64,
        /// How many steps of the witness use no line.
        hidden: u64,
    },
    /// It doesn't.
    No {
        /// The line of the first step that breaks a rule, in the witness; 0 if something is left at the end.
        witness_line: u64,
        /// The line of the trace that the step names; 0 if it names none.
        trace_line: u64,
        rule: Rule,
    },
}

impl Verdict {
    /// Whether it is a yes.
    pub fn is_yes(&self) -> bool {
        matches!(self, Verdict::Yes { .. })
    }
}

impl fmt::Display for Verdict {
    fn fmt(&self, f: &mut fmt::Formatter<'_>) -> fmt::Result {
        match self {
            Verdict::Yes { lines, hidden } => write!(f, "yes {lines} {hidden}"),
            Verdict::No { witness_line, trace_line, rule } => write!(f, "no {witness_line} {trace_line} {rule}"),
        }
    }
}

/// Why a text can't be read.
#[derive(Clone, Copy, Debug, PartialEq, Eq)]
pub enum Fault {
    Header,
    Field,
    Number,
    Hex,
    SegmentShort,
    SegmentOffset,
    SegmentOptionLength,
    SegmentTooLong,
    MomentFalls,
    LineTooLong,
    Cut,
    TooManyLines,
}

impl Fault {
    /// The name under which `tcpwit check` prints it.
    pub fn name(self) -> &'static str {
        match self {
            Fault::Header => "header",
            Fault::Field => "field",
            Fault::Number => "number",
            Fault::Hex => "hex",
            Fault::SegmentShort => "segment short",
            Fault::SegmentOffset => "segment offset",
            Fault::SegmentOptionLength => "segment option-length",
            Fault::SegmentTooLong => "segment too-long",
            Fault::MomentFalls => "moment-falls",
            Fault::LineTooLong => "line-too-long",
            Fault::Cut => "cut",
            Fault::TooManyLines => "too-many-lines",
        }
    }

    fn numbered(number: u32) -> Option<Fault> {
        Some(match number {
            1 => Fault::Header,
            2 => Fault::Field,
            3 => Fault::Number,
            4 => Fault::Hex,
            5 => Fault::SegmentShort,
            6 => Fault::SegmentOffset,
            7 => Fault::SegmentOptionLength,
            8 => Fault::SegmentTooLong,
            10 => Fault::MomentFalls,
            11 => Fault::LineTooLong,
            12 => Fault::Cut,
            13 => Fault::TooManyLines,
            _ => return None,
        })
    }
}

/// The first fault of a text, and its place.
#[derive(Clone, Copy, Debug, PartialEq, Eq)]
pub struct TextFault {
    pub fault: Fault,
    /// The line in its own text, from 1.
    pub line: u64,
    /// Where the fault begins in the line, in bytes from 0.
    pub start: u64,
    /// Where it ends.
    pub stop: u64,
}

impl fmt::Display for TextFault {
    fn fmt(&self, f: &mut fmt::Formatter<'_>) -> fmt::Result {
        write!(f, "{} {} {} {}", self.line, self.start, self.stop, self.fault.name())
    }
}

/// Why a case has no verdict. It prints as `tcpwit check` prints it.
#[derive(Clone, Copy, Debug, PartialEq, Eq)]
pub enum CaseError {
    Trace(TextFault),
    Witness(TextFault),
    OutOfMemory,
}

impl fmt::Display for CaseError {
    fn fmt(&self, f: &mut fmt::Formatter<'_>) -> fmt::Result {
        match self {
            CaseError::Trace(fault) => write!(f, "bad trace {fault}"),
            CaseError::Witness(fault) => write!(f, "bad witness {fault}"),
            CaseError::OutOfMemory => f.write_str("bad memory"),
        }
    }
}

#[cfg(feature = "std")]
impl std::error::Error for CaseError {}

/// The verdict on a case: a trace, and then its witness.
pub fn check(case: &[u8]) -> Result<Verdict, CaseError> {
    let mut answer = Answer::default();
    // SAFETY: the slice is valid for its length, and the answer may be written.
    unsafe { tcpwit_check(case.as_ptr(), case.len(), &mut answer) };
    read(&answer)
}

/// The verdict on a case whose trace and witness are two texts.
pub fn check_two(trace: &[u8], witness: &[u8]) -> Result<Verdict, CaseError> {
    let mut answer = Answer::default();
    // SAFETY: the slices are valid for their lengths, and the answer may be written.
    unsafe { tcpwit_check_two(trace.as_ptr(), trace.len(), witness.as_ptr(), witness.len(), &mut answer) };
    read(&answer)
}

fn read(answer: &Answer) -> Result<Verdict, CaseError> {
    match (answer.kind, Rule::numbered(answer.rule), Fault::numbered(answer.fault)) {
        (0, ..) => Ok(Verdict::Yes { lines: answer.lines, hidden: answer.hidden }),
        (1, Some(rule), _) => Ok(Verdict::No { witness_line: answer.witness_line, trace_line: answer.trace_line, rule }),
        (2, _, Some(fault)) => Err(CaseError::Trace(place(answer, fault))),
        (3, _, Some(fault)) => Err(CaseError::Witness(place(answer, fault))),
        _ => Err(CaseError::OutOfMemory),
    }
}

fn place(answer: &Answer, fault: Fault) -> TextFault {
    TextFault { fault, line: answer.fault_line, start: answer.fault_start, stop: answer.fault_stop }
}
