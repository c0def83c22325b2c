//! The rules that a no names. `tools/rule_names.py` writes this file.

use core::fmt;

/// A rule that a no names. `docs/reference/rules.md` explains them.
#[derive(Clone, Copy, Debug, PartialEq, Eq, Hash)]
pub enum Rule {
    /// L names no event line, or names an unplaced line with another count of extra numbers than its kind needs.
    LineRange = 1,
    /// That line was placed before.
    LineAgain = 2,
    /// An earlier line of its thread is not placed.
    ThreadOrder = 3,
    /// The step's moment is before that of the step before.
    MomentFalls = 4,
    /// The step's moment is before the line's, or after it by more than the skew.
    MomentOff = 5,
    /// Some line that is not placed may no longer wait.
    Overdue = 6,
    /// The line begins a call, but the thread has an open call.
    ThreadBusy = 7,
    /// An effect or the end of a call, but the thread has no open call.
    NoCall = 8,
    /// An effect, but the open call already had its effect.
    DoneTwice = 9,
    /// The end of a call that had no effect yet, or had another answer.
    AnswerDiffers = 10,
    /// An effect returns a socket number that was returned before.
    Socket = 11,
    /// An effect with an answer that the call may not have.
    CallAnswer = 12,
    /// No endpoint exists at these ports, or it is closed.
    NoEndpoint = 13,
    /// The endpoint's state allows no segment of that kind.
    State = 14,
    /// The initial send sequence number is missing, was given before, or is given without a SYN.
    Iss = 15,
    /// The segment on the wire is not the one that was built.
    BytesDiffer = 16,
    /// No such segment was built, or it was already sent.
    NotMade = 17,
    /// The segment's bytes are not among those accepted, or its FIN is not at the end of them.
    PayloadRange = 18,
    /// An acknowledgment before the peer's SYN was received, or no acknowledgment after it.
    AckField = 19,
    /// A segment with old data at a place where nothing may be retransmitted.
    OldData = 20,
    /// New data ends beyond the offered window (RFC 9293, 3.8.6).
    Offered = 21,
    /// New data ends beyond the congestion window (RFC 5681, 3.1).
    Congestion = 22,
    /// The segment holds more data than the sender's maximum segment size.
    Size = 23,
    /// What arrives is not a segment that the other host sent.
    NoEmission = 24,
    /// What arrives has other bytes than the segment that it copies.
    CopyDiffers = 25,
    /// The segment is older than the maximum segment lifetime.
    Lifetime = 26,
    /// The segment isn't waiting in the host's inbox.
    Inbox = 27,
    /// The segment was built by another endpoint than this endpoint's peer.
    NotPeer = 28,
    /// A sequence or acknowledgment number does not read back to its position.
    Number = 29,
    /// The segment is not acceptable (RFC 9293, 3.4).
    Unacceptable = 30,
    /// The acknowledgment is missing or out of range.
    AckRange = 31,
    /// The child would join a full listen queue.
    QueueFull = 32,
    /// The congestion window or the slow start threshold is above the greatest value allowed.
    Growth = 33,
    /// A round trip time is measured when it may not be (RFC 6298, 3).
    Sample = 34,
    /// The timer is not armed, or what it waits for doesn't exist.
    TimerOff = 35,
    /// The timer expires before it may.
    TimerEarly = 36,
    /// Fast recovery may not be entered (RFC 5681, 3.2).
    Recovery = 37,
    /// A segment's window would be read with another shift than its sender's.
    ScaleUnread = 38,
    /// A line is not placed after the last step.
    Unplaced = 39,
    /// A segment is dropped that the host has to process or answer (RFC 9293, 3.10.7).
    Dropped = 40,
    /// What is next in order is received but not kept (RFC 9293, 3.10.7.4).
    Discarded = 41,
    /// A segment waits too long in the inbox (RFC 9293, 3.10.7).
    ProcessLate = 42,
    /// A segment is sent too long after it was built (RFC 9293, 3.10.2 and 3.10.7).
    SendLate = 43,
    /// An acknowledgment is late (RFC 9293, 3.8.6.3; RFC 5681, 4.2).
    AckLate = 44,
    /// The retransmission timer expires late (RFC 6298, 5.1 to 5.3).
    ExpiryLate = 45,
    /// The retransmission after an expiry is late (RFC 6298, 5.4).
    ResendLate = 46,
    /// A probe of a closed window is late (RFC 9293, 3.8.6.1).
    ProbeLate = 47,
    /// What may be sent is sent late (RFC 9293, 3.8.6.2.1, 3.10.2 and 3.10.4).
    StartLate = 48,
    /// The reset of an aborted connection is late (RFC 9293, 3.10.5).
    ResetLate = 49,
    /// A position is retransmitted twice after one expiry (RFC 6298, 5.4; RFC 5681, 3.2).
    Resent = 50,
    /// A retransmission ends beyond the congestion window (RFC 5681, 3.1).
    ResentBeyond = 51,
    /// There are more acknowledgments than received segments (RFC 5681, 4.2).
    AckExcess = 52,
    /// A selective acknowledgment reports what the host doesn't hold, or wasn't permitted (RFC 2018, 2 to 4).
    SackUntrue = 53,
    /// A segment doesn't echo the timestamp that it has to (RFC 7323, 3.2 and 4.3).
    Echo = 54,
    /// The timestamp of a segment is older than that of one that was built before it (RFC 7323, 5.2).
    ClockFalls = 55,
    /// A round trip isn't measured, though none was since this data was sent (RFC 6298, 3).
    SampleDue = 56,
    /// A call that can be answered is answered late (RFC 9293, 3.9.1).
    AnswerLate = 57,
}

impl Rule {
    /// All rules, in the order of their numbers.
    pub const ALL: [Rule; 57] = [
        Rule::LineRange,
        Rule::LineAgain,
        Rule::ThreadOrder,
        Rule::MomentFalls,
        Rule::MomentOff,
        Rule::Overdue,
        Rule::ThreadBusy,
        Rule::NoCall,
        Rule::DoneTwice,
        Rule::AnswerDiffers,
        Rule::Socket,
        Rule::CallAnswer,
        Rule::NoEndpoint,
        Rule::State,
        Rule::Iss,
        Rule::BytesDiffer,
        Rule::NotMade,
        Rule::PayloadRange,
        Rule::AckField,
        Rule::OldData,
        Rule::Offered,
        Rule::Congestion,
        Rule::Size,
        Rule::NoEmission,
        Rule::CopyDiffers,
        Rule::Lifetime,
        Rule::Inbox,
        Rule::NotPeer,
        Rule::Number,
        Rule::Unacceptable,
        Rule::AckRange,
        Rule::QueueFull,
        Rule::Growth,
        Rule::Sample,
        Rule::TimerOff,
        Rule::TimerEarly,
        Rule::Recovery,
        Rule::ScaleUnread,
        Rule::Unplaced,
        Rule::Dropped,
        Rule::Discarded,
        Rule::ProcessLate,
        Rule::SendLate,
        Rule::AckLate,
        Rule::ExpiryLate,
        Rule::ResendLate,
        Rule::ProbeLate,
        Rule::StartLate,
        Rule::ResetLate,
        Rule::Resent,
        Rule::ResentBeyond,
        Rule::AckExcess,
        Rule::SackUntrue,
        Rule::Echo,
        Rule::ClockFalls,
        Rule::SampleDue,
        Rule::AnswerLate,
    ];

    /// The rule with this number: 1 to 57.
    pub fn numbered(number: u32) -> Option<Rule> {
        Self::ALL.into_iter().find(|rule| rule.number() == number)
    }

    /// Its number: 1 to 57.
    pub fn number(self) -> u32 {
        self as u32
    }

    /// The name under which `tcpwit check` prints it.
    pub fn name(self) -> &'static str {
        match self {
            Rule::LineRange => "line-range",
            Rule::LineAgain => "line-again",
            Rule::ThreadOrder => "thread-order",
            Rule::MomentFalls => "moment-falls",
            Rule::MomentOff => "moment-off",
            Rule::Overdue => "overdue",
            Rule::ThreadBusy => "thread-busy",
            Rule::NoCall => "no-call",
            Rule::DoneTwice => "done-twice",
            Rule::AnswerDiffers => "answer-differs",
            Rule::Socket => "socket",
            Rule::CallAnswer => "call-answer",
            Rule::NoEndpoint => "no-endpoint",
            Rule::State => "state",
            Rule::Iss => "iss",
            Rule::BytesDiffer => "bytes-differ",
            Rule::NotMade => "not-made",
            Rule::PayloadRange => "payload-range",
            Rule::AckField => "ack-field",
            Rule::OldData => "old-data",
            Rule::Offered => "offered",
            Rule::Congestion => "congestion",
            Rule::Size => "size",
            Rule::NoEmission => "no-emission",
            Rule::CopyDiffers => "copy-differs",
            Rule::Lifetime => "lifetime",
            Rule::Inbox => "inbox",
            Rule::NotPeer => "not-peer",
            Rule::Number => "number",
            Rule::Unacceptable => "unacceptable",
            Rule::AckRange => "ack-range",
            Rule::QueueFull => "queue-full",
            Rule::Growth => "growth",
            Rule::Sample => "sample",
            Rule::TimerOff => "timer-off",
            Rule::TimerEarly => "timer-early",
            Rule::Recovery => "recovery",
            Rule::ScaleUnread => "scale-unread",
            Rule::Unplaced => "unplaced",
            Rule::Dropped => "dropped",
            Rule::Discarded => "discarded",
            Rule::ProcessLate => "process-late",
            Rule::SendLate => "send-late",
            Rule::AckLate => "ack-late",
            Rule::ExpiryLate => "expiry-late",
            Rule::ResendLate => "resend-late",
            Rule::ProbeLate => "probe-late",
            Rule::StartLate => "start-late",
            Rule::ResetLate => "reset-late",
            Rule::Resent => "resent",
            Rule::ResentBeyond => "resent-beyond",
            Rule::AckExcess => "ack-excess",
            Rule::SackUntrue => "sack-untrue",
            Rule::Echo => "echo",
            Rule::ClockFalls => "clock-falls",
            Rule::SampleDue => "sample-due",
            Rule::AnswerLate => "answer-late",
        }
    }
}

impl fmt::Display for Rule {
    fn fmt(&self, f: &mut fmt::Formatter<'_>) -> fmt::Result {
        f.write_str(self.name())
    }
}
