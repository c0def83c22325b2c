//! What the commands of `tcpwit_lab` do.

use crate::{ffi, Level};
use std::fmt;
use std::ops::Deref;

/// How many steps the search may spend on going back for one line, if nothing else is known.
pub const USUAL_BUDGET: u64 = 1_000_000;

/// A text that the library made.
pub struct Said(ffi::Text);

// SAFETY: the text isn't shared, and nothing changes it.
unsafe impl Send for Said {}
unsafe impl Sync for Said {}

impl Said {
    fn none() -> Said {
        Said(ffi::Text::NONE)
    }
}

impl Deref for Said {
    type Target = [u8];

    fn deref(&self) -> &[u8] {
        if self.0.bytes.is_null() {
            return &[];
        }
        // SAFETY: the library gave this many bytes, and they stay until they are freed.
        unsafe { std::slice::from_raw_parts(self.0.bytes, self.0.length) }
    }
}

impl Drop for Said {
    fn drop(&mut self) {
        // SAFETY: the library made the text, and it is freed once.
        unsafe { ffi::tcpwit_text_free(&mut self.0) }
    }
}

impl fmt::Display for Said {
    fn fmt(&self, f: &mut fmt::Formatter<'_>) -> fmt::Result {
        f.write_str(&String::from_utf8_lossy(self))
    }
}

impl fmt::Debug for Said {
    fn fmt(&self, f: &mut fmt::Formatter<'_>) -> fmt::Result {
        fmt::Debug::fmt(&String::from_utf8_lossy(self), f)
    }
}

/// Why there is no answer.
#[derive(Debug)]
pub enum LabError {
    /// A text can't be read: the line says where and why.
    Refused(Said),
    /// The slack is above 10^18.
    Usage,
    OutOfMemory,
}

impl fmt::Display for LabError {
    fn fmt(&self, f: &mut fmt::Formatter<'_>) -> fmt::Result {
        match self {
            LabError::Refused(line) => f.write_str(String::from_utf8_lossy(line).trim_end()),
            LabError::Usage => f.write_str("bad usage"),
            LabError::OutOfMemory => f.write_str("bad memory"),
        }
    }
}

impl std::error::Error for LabError {}

/// The text, unless the status says that there is none.
fn given(status: u32, said: Said) -> Result<Said, LabError> {
    match status {
        2 => Err(LabError::Refused(said)),
        3 => Err(LabError::Usage),
        4 => Err(LabError::OutOfMemory),
        _ => Ok(said),
    }
}

/// What `tcpwit_lab explain` prints: the answer, and after a no or a fault what it is about.
pub fn explain(case: &[u8], simulated: bool) -> Result<Said, LabError> {
    let mut said = Said::none();
    // SAFETY: the slice is valid for its length, and the text may be written.
    match unsafe { ffi::tcpwit_explain(case.as_ptr(), case.len(), simulated, &mut said.0) } {
        4 => Err(LabError::OutOfMemory),
        _ => Ok(said),
    }
}

/// Suspicious behavior in a case that breaks no rule, a line for each.
pub fn remark(case: &[u8]) -> Result<Said, LabError> {
    let mut said = Said::none();
    // SAFETY: as in `explain`.
    let status = unsafe { ffi::tcpwit_remark(case.as_ptr(), case.len(), &mut said.0) };
    given(status, said)
}

/// A case of the trace, with the witness that the search found. If it found none, `check` refuses the case.
pub fn find(trace: &[u8], budget: u64) -> Result<Said, LabError> {
    let mut said = Said::none();
    // SAFETY: as in `explain`.
    let status = unsafe { ffi::tcpwit_find(trace.as_ptr(), trace.len(), budget, &mut said.0) };
    given(status, said)
}

/// How late a host may be with its duties.
#[derive(Clone, Copy, Debug, PartialEq, Eq)]
pub enum Slack {
    /// As a trace of version 5 or 6 says, else a second.
    Usual,
    /// So many microseconds, at most 10^18.
    Micros(u64),
    /// Duties aren't judged.
    Any,
}

/// How a trace was judged. It prints as `tcpwit_lab judge` prints it.
#[derive(Debug)]
pub struct Judgement {
    /// The strictest level with a yes. None: no level has one.
    pub level: Option<Level>,
    pub text: Said,
    /// The case of the last level that was tried.
    pub case: Said,
}

impl Judgement {
    /// Whether this level or a stricter one has a yes.
    pub fn meets(&self, least: Level) -> bool {
        matches!(self.level, Some(level) if level <= least)
    }
}

impl fmt::Display for Judgement {
    fn fmt(&self, f: &mut fmt::Formatter<'_>) -> fmt::Result {
        self.text.fmt(f)
    }
}

/// Judges a trace at each level until one has a yes. `budget` bounds what the search spends on going back.
pub fn judge(trace: &[u8], slack: Slack, budget: u64) -> Result<Judgement, LabError> {
    let slack = match slack {
        Slack::Usual => u64::MAX,
        Slack::Any => u64::MAX - 1,
        Slack::Micros(micros) => micros.min(u64::MAX - 2),
    };
    let mut judgement = ffi::Judgement { level: 3, said: ffi::Text::NONE, found: ffi::Text::NONE };
    // SAFETY: as in `explain`.
    let status = unsafe { ffi::tcpwit_judge(trace.as_ptr(), trace.len(), slack, budget, &mut judgement) };
    let (text, case) = (Said(judgement.said), Said(judgement.found));
    let level = match judgement.level {
        0 => Some(Level::Full),
        1 => Some(Level::Recovery),
        2 => Some(Level::None),
        _ => None,
    };
    Ok(Judgement { level, text: given(status, text)?, case })
}
