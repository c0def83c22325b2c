//! The library's functions, as its header declares them (bindings/c/tcpwit.h).

/// `struct tcpwit_result`.
#[repr(C)]
#[derive(Default)]
pub(crate) struct Answer {
    pub kind: u32,
    pub rule: u32,
    pub fault: u32,
    pub lines: u64,
    pub hidden: u64,
    pub witness_line: u64,
    pub trace_line: u64,
    pub fault_line: u64,
    pub fault_start: u64,
    pub fault_stop: u64,
}

/// `struct tcpwit_text`.
#[cfg(feature = "std")]
#[repr(C)]
pub(crate) struct Text {
    pub bytes: *const u8,
    pub length: usize,
}

#[cfg(feature = "std")]
impl Text {
    /// No text.
    pub(crate) const NONE: Text = Text { bytes: core::ptr::null(), length: 0 };
}

/// `struct tcpwit_judgement`.
#[cfg(feature = "std")]
#[repr(C)]
pub(crate) struct Judgement {
    pub level: u32,
    pub said: Text,
    pub found: Text,
}

extern "C" {
    pub(crate) fn tcpwit_check(text: *const u8, length: usize, answer: *mut Answer);
    pub(crate) fn tcpwit_check_two(trace: *const u8, trace_length: usize, witness: *const u8, witness_length: usize, answer: *mut Answer);
}

#[cfg(feature = "std")]
extern "C" {
    pub(crate) fn tcpwit_explain(text: *const u8, length: usize, simulated: bool, said: *mut Text) -> u32;
    pub(crate) fn tcpwit_remark(text: *const u8, length: usize, said: *mut Text) -> u32;
    pub(crate) fn tcpwit_find(trace: *const u8, length: usize, budget: u64, said: *mut Text) -> u32;
    pub(crate) fn tcpwit_judge(trace: *const u8, length: usize, slack: u64, budget: u64, judgement: *mut Judgement) -> u32;
    pub(crate) fn tcpwit_text_free(text: *mut Text);
}
