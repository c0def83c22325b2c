//! Writes the lines of a trace and of a witness from the hooks of a stack (docs/reference/formats.md, docs/how-to/own-traces.md).
//!
//! ```
//! use tcpwit::trace::{Header, Trace};
//! use tcpwit::Level;
//!
//! let mut trace = Trace::new(Vec::new(), 5);
//! trace.header(&Header { msl: 60_000_000, grain: 1_000, minrto: 200_000, ..Header::default() })?;
//! trace.judged(2, Level::Full, Some(20_000))?;
//! trace.begin_send(10, 1, 6, b"hello")?; // before the call does anything
//! trace.end_number(20, 1, 5)?; // after it: the number of accepted bytes
//! # let (header, payload) = ([0; 20], b"hello");
//! trace.out(30, 90, 0, &[&header, payload])?;
//! trace.finish(40)?; // when the recording stops
//! # Ok::<(), std::io::Error>(())
//! ```
//!
//! Arguments of all functions:
//!
//! - `moment`: microseconds on one clock for both hosts, from any start. A moment that goes back is written as the previous one.
//! - `thread`: a number for each calling thread, and different ones, for each host, for segments received, segments sent and timers. The
//!   lines of one thread keep their order, and a thread has at most one open call. `LAST_THREAD` is taken.
//! - `host`: 0 or 1. Always 0 if only host 0 is recorded (version 3, or a later one with hosts 1).
//! - `socket`: numbers from 1 that you choose: use each one only once in a trace, for a listener or an opened or accepted connection.
//! - a segment: from the first byte of the TCP header to the last of the payload, without IP, in any number of parts.
//!
//! Each function of a trace returns the number of the line that it wrote. A witness refers to lines by these numbers. To share a trace
//! between threads, put it in a `Mutex`.

use crate::Level;
use std::fmt;
use std::io::{self, Write};

/// The header's numbers; times in microseconds. If in doubt, a smaller `minrto` and a larger `grain` and `extra` are less strict. In version 5, an expiry
/// may also be too late, so a `minrto` that is too small needs more slack.
#[derive(Clone, Debug)]
pub struct Header {
    /// 0 if one clock stamps everything.
    pub skew: u64,
    /// The maximum segment lifetime, half of the length of TIME-WAIT.
    pub msl: u64,
    /// The tick of the timers' clock.
    pub grain: u64,
    /// The minimum retransmission timeout.
    pub minrto: u64,
    /// How many children a queue holds beyond its backlog.
    pub extra: u32,
    /// 5681 or 6928, the RFC of the initial window; not written in version 1.
    pub initial: u32,
}

impl Default for Header {
    fn default() -> Header {
        Header { skew: 0, msl: 120_000_000, grain: 1_000, minrto: 1_000_000, extra: 0, initial: 5681 }
    }
}

/// The thread of `Trace::finish`.
pub const LAST_THREAD: u32 = u32::MAX;

/// An answer without a number or bytes.
#[derive(Clone, Copy, Debug, PartialEq, Eq)]
pub enum Answer {
    Ok,
    /// Not yet.
    Again,
    /// All bytes up to the peer's FIN were received.
    Eof,
    /// Sending was shut down, or the connection is gone: EPIPE.
    Closed,
    NotConn,
    Refused,
    Reset,
    Timeout,
    InUse,
    BadSocket,
}

impl fmt::Display for Answer {
    fn fmt(&self, f: &mut fmt::Formatter<'_>) -> fmt::Result {
        f.write_str(match self {
            Answer::Ok => "ok",
            Answer::Again => "again",
            Answer::Eof => "eof",
            Answer::Closed => "closed",
            Answer::NotConn => "notconn",
            Answer::Refused => "refused",
            Answer::Reset => "reset",
            Answer::Timeout => "timeout",
            Answer::InUse => "inuse",
            Answer::BadSocket => "badsocket",
        })
    }
}

#[derive(Clone, Copy, Debug, PartialEq, Eq)]
pub enum Timer {
    Rto,
    Persist,
    TwoMsl,
    GiveUp,
    /// Of a tail loss probe (RFC 8985, 7), in version 6.
    Pto,
}

impl fmt::Display for Timer {
    fn fmt(&self, f: &mut fmt::Formatter<'_>) -> fmt::Result {
        f.write_str(match self {
            Timer::Rto => "rto",
            Timer::Persist => "persist",
            Timer::TwoMsl => "2msl",
            Timer::GiveUp => "giveup",
            Timer::Pto => "pto",
        })
    }
}

struct Hex<'a>(&'a [&'a [u8]]);

impl fmt::Display for Hex<'_> {
    fn fmt(&self, f: &mut fmt::Formatter<'_>) -> fmt::Result {
        self.0.iter().copied().flatten().try_for_each(|byte| write!(f, "{byte:02x}"))
    }
}

/// Numbers, each with a space before it.
struct Numbers<'a>(&'a [u32]);

impl fmt::Display for Numbers<'_> {
    fn fmt(&self, f: &mut fmt::Formatter<'_>) -> fmt::Result {
        self.0.iter().try_for_each(|number| write!(f, " {number}"))
    }
}

/// A segment in a witness.
#[derive(Clone, Debug)]
pub struct Made<'a> {
    pub host: u8,
    pub local: u16,
    pub remote: u16,
    /// The position of its first sequence number: 0 for the SYN, 1 for the first byte.
    pub position: u64,
    pub length: u16,
    /// Letters of `ARSF`, or `-`.
    pub flags: &'a str,
    /// The header field.
    pub window: u16,
    /// For the first SYN of an endpoint: its sequence number, and from version 2 on optionally its shift.
    pub first: &'a [u32],
}

/// Writes lines. Use another one for a witness.
pub struct Trace<W: Write> {
    to: W,
    version: u8,
    line: u32,
    moment: u64,
}

impl<W: Write> Trace<W> {
    /// A writer of format version 1, 2, 3, 5 or 6. Version 6 reads SACK blocks, and has no level `Full`.
    pub fn new(to: W, version: u8) -> Trace<W> {
        Trace { to, version, line: 0, moment: 0 }
    }

    /// Returns the underlying writer.
    pub fn into_inner(self) -> W {
        self.to
    }

    fn write(&mut self, text: fmt::Arguments<'_>) -> io::Result<u32> {
        writeln!(self.to, "{text}")?;
        self.line += 1;
        Ok(self.line)
    }

    fn event(&mut self, moment: u64, thread: u32, text: fmt::Arguments<'_>) -> io::Result<u32> {
        self.moment = self.moment.max(moment);
        let moment = self.moment;
        self.write(format_args!("{moment} {thread} {text}"))
    }

    /// The header. Call it first. From version 5 on, `judged` follows.
    pub fn header(&mut self, header: &Header) -> io::Result<()> {
        let version = self.version;
        self.write(format_args!("trace {version}"))?;
        self.write(format_args!("skew {}", header.skew))?;
        self.write(format_args!("msl {}", header.msl))?;
        self.write(format_args!("grain {}", header.grain))?;
        self.write(format_args!("minrto {}", header.minrto))?;
        self.write(format_args!("extra {}", header.extra))?;
        if version > 1 {
            self.write(format_args!("initial {}", header.initial))?;
        }
        if version == 3 {
            self.write(format_args!("half 0"))?;
        }
        Ok(())
    }

    /// The rest of the header from version 5 on: what is judged. `hosts`: 2, or 1 if only host 0 is recorded. `slack`: by how many microseconds a host may
    /// be late with what it has to do, such as an acknowledgment or a retransmission; `None` if that isn't judged. On a simulated
    /// clock, 20,000 is enough. Add the tick of your stack's slowest timer, and on a real clock how long it may wait until it runs. In version 6,
    /// two lines follow that have no effect below `Full`.
    pub fn judged(&mut self, hosts: u8, congestion: Level, slack: Option<u64>) -> io::Result<()> {
        self.write(format_args!("hosts {hosts}"))?;
        self.write(format_args!("congestion {congestion}"))?;
        match slack {
            Some(slack) => self.write(format_args!("slack {slack}"))?,
            None => self.write(format_args!("slack any"))?,
        };
        if self.version == 6 {
            self.write(format_args!("sender cubic"))?;
            self.write(format_args!("growth any"))?;
        }
        Ok(())
    }

    // ---- Calls begin: before the stack does anything for them ----

    pub fn begin_listen(&mut self, moment: u64, thread: u32, host: u8, port: u16, backlog: u16) -> io::Result<u32> {
        self.event(moment, thread, format_args!("B listen {host} {port} {backlog}"))
    }

    /// A connect, blocking or not. It ends at once with a number; use `begin_await` for whether the connection is established.
    pub fn begin_open(&mut self, moment: u64, thread: u32, host: u8, local: u16, remote: u16) -> io::Result<u32> {
        self.event(moment, thread, format_args!("B open {host} {local} {remote}"))
    }

    pub fn begin_await(&mut self, moment: u64, thread: u32, socket: u32) -> io::Result<u32> {
        self.event(moment, thread, format_args!("B await {socket}"))
    }

    pub fn begin_accept(&mut self, moment: u64, thread: u32, listener: u32) -> io::Result<u32> {
        self.event(moment, thread, format_args!("B accept {listener}"))
    }

    /// 1 to 65,535 bytes to send.
    pub fn begin_send(&mut self, moment: u64, thread: u32, socket: u32, bytes: &[u8]) -> io::Result<u32> {
        self.event(moment, thread, format_args!("B send {socket} {}", Hex(&[bytes])))
    }

    /// At most this many bytes are requested, 1 to 65,535.
    pub fn begin_recv(&mut self, moment: u64, thread: u32, socket: u32, most: u32) -> io::Result<u32> {
        self.event(moment, thread, format_args!("B recv {socket} {most}"))
    }

    /// Shuts down sending: `shutdown(Shutdown::Write)`.
    pub fn begin_shut(&mut self, moment: u64, thread: u32, socket: u32) -> io::Result<u32> {
        self.event(moment, thread, format_args!("B shut {socket}"))
    }

    pub fn begin_close(&mut self, moment: u64, thread: u32, socket: u32) -> io::Result<u32> {
        self.event(moment, thread, format_args!("B close {socket}"))
    }

    /// Aborts with a reset: a linger of 0 and a close.
    pub fn begin_abort(&mut self, moment: u64, thread: u32, socket: u32) -> io::Result<u32> {
        self.event(moment, thread, format_args!("B abort {socket}"))
    }

    pub fn begin_status(&mut self, moment: u64, thread: u32, socket: u32) -> io::Result<u32> {
        self.event(moment, thread, format_args!("B status {socket}"))
    }

    // ---- Calls end: once the answer is known. A call that still waits has no such line ----

    /// An answer without a value: await, shut, close, abort, and every failure. If the system reports a fault only once, repeat it yourself.
    pub fn end(&mut self, moment: u64, thread: u32, answer: Answer) -> io::Result<u32> {
        self.event(moment, thread, format_args!("E {answer}"))
    }

    /// `ok` with the socket of listen, open and accept, or with how many bytes a send accepted, at least 1.
    pub fn end_number(&mut self, moment: u64, thread: u32, number: u32) -> io::Result<u32> {
        self.event(moment, thread, format_args!("E ok {number}"))
    }

    /// A recv that returned bytes, at least 1. If it returned none because the peer's stream ended: `end` with `Answer::Eof`.
    pub fn end_data(&mut self, moment: u64, thread: u32, bytes: &[u8]) -> io::Result<u32> {
        self.event(moment, thread, format_args!("E data {}", Hex(&[bytes])))
    }

    /// The state, by its name in RFC 9293, 3.3.2: `SYN-SENT`.
    pub fn end_state(&mut self, moment: u64, thread: u32, state: &str) -> io::Result<u32> {
        self.event(moment, thread, format_args!("E state {state}"))
    }

    // ---- The wire and the timers ----

    /// A segment is sent: call this where the stack passes it to IP, with the bytes that the peer will see.
    pub fn out(&mut self, moment: u64, thread: u32, host: u8, parts: &[&[u8]]) -> io::Result<u32> {
        self.event(moment, thread, format_args!("O {host} {}", Hex(parts)))
    }

    /// A segment arrived: call this before the stack examines it, even if the stack will drop it.
    pub fn came(&mut self, moment: u64, thread: u32, host: u8, parts: &[&[u8]]) -> io::Result<u32> {
        self.event(moment, thread, format_args!("I {host} {}", Hex(parts)))
    }

    /// A timer expired. Call this before its effects.
    pub fn expired(&mut self, moment: u64, thread: u32, host: u8, local: u16, remote: u16, timer: Timer) -> io::Result<u32> {
        self.event(moment, thread, format_args!("T {host} {local} {remote} {timer}"))
    }

    /// The recording stops: a call that changes nothing shows how long it lasted, without which nothing is late after the last event. Write no line
    /// after it. It is on a thread of its own, and about socket 0, which must not exist. Returns the number of its second line.
    pub fn finish(&mut self, moment: u64) -> io::Result<u32> {
        self.begin_status(moment, LAST_THREAD, 0)?;
        self.end(moment, LAST_THREAD, Answer::BadSocket)
    }

    // ---- A witness, if your stack knows more than a trace shows. Write it to a separate place, and append it to the trace at the end ----

    fn step(&mut self, moment: u64, text: fmt::Arguments<'_>) -> io::Result<()> {
        self.moment = self.moment.max(moment);
        let moment = self.moment;
        self.write(format_args!("{moment} {text}")).map(|_| ())
    }

    /// The first line.
    pub fn witness(&mut self) -> io::Result<()> {
        let version = self.version;
        self.write(format_args!("witness {version}")).map(|_| ())
    }

    /// Places a line of the trace, with its numbers: none for B, E, and timers except rto; for an O line, the number of the made segment, counted from 1
    /// over both hosts; for an I line, the O line that it copies, or none if only host 0 is recorded; for rto, cwnd and ssthresh after it.
    pub fn step_line(&mut self, moment: u64, line: u32, numbers: &[u32]) -> io::Result<()> {
        self.step(moment, format_args!("L {line}{}", Numbers(numbers)))
    }

    /// The effect of a thread's open call, with its answer in the words of a trace: `ok 5`, `data 6869`, `state LISTEN`.
    pub fn step_effect(&mut self, moment: u64, thread: u32, answer: &str) -> io::Result<()> {
        self.step(moment, format_args!("D {thread} {answer}"))
    }

    /// The steps of `finish`, whose second line has this number.
    pub fn step_finish(&mut self, moment: u64, line: u32) -> io::Result<()> {
        self.step_line(moment, line - 1, &[])?;
        self.step_effect(moment, LAST_THREAD, "badsocket")?;
        self.step_line(moment, line, &[])
    }

    pub fn step_make(&mut self, moment: u64, made: &Made<'_>) -> io::Result<()> {
        let Made { host, local, remote, position, length, flags, window, first } = made;
        self.step(moment, format_args!("M {host} {local} {remote} {position} {length} {flags} {window}{}", Numbers(first)))
    }

    /// Processes the segment of an I line: the congestion window afterwards, whether its bytes were kept, whether the round trip was measured.
    pub fn step_take(&mut self, moment: u64, host: u8, line: u32, cwnd: u32, kept: bool, measured: bool) -> io::Result<()> {
        self.step(moment, format_args!("T {host} {line} {cwnd} {} {}", u8::from(kept), u8::from(measured)))
    }

    /// Drops the segment of an I line.
    pub fn step_drop(&mut self, moment: u64, host: u8, line: u32) -> io::Result<()> {
        self.step(moment, format_args!("K {host} {line}"))
    }

    /// Answers the segment of an I line with a reset, which counts as a made segment.
    pub fn step_reset(&mut self, moment: u64, host: u8, line: u32) -> io::Result<()> {
        self.step(moment, format_args!("R {host} {line}"))
    }

    /// Fast recovery begins, with this congestion window and threshold.
    pub fn step_recovery(&mut self, moment: u64, host: u8, local: u16, remote: u16, cwnd: u32, ssthresh: u32) -> io::Result<()> {
        self.step(moment, format_args!("F {host} {local} {remote} {cwnd} {ssthresh}"))
    }
}
