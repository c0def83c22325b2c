//! Writes the case of a handshake and five bytes, a SYN that is never retransmitted, the end of a header without duties, and lines of version 6.

use std::fs;
use std::io::{self, Write};
use tcpwit::trace::{Header, Made, Timer, Trace, LAST_THREAD};
use tcpwit::Level;

const SYN: &[u8] = &[0x0f, 0xa0, 0, 0x50, 0xff, 0xff, 0xff, 0xfe, 0, 0, 0, 0, 0x50, 0x02, 0xff, 0xff, 0, 0, 0, 0];
const SYN_ACK: &[u8] = &[0, 0x50, 0x0f, 0xa0, 0, 0, 0, 0x64, 0xff, 0xff, 0xff, 0xff, 0x50, 0x12, 0xff, 0xff, 0, 0, 0, 0];
const ACK: &[u8] = &[0x0f, 0xa0, 0, 0x50, 0xff, 0xff, 0xff, 0xff, 0, 0, 0, 0x65, 0x50, 0x10, 0xff, 0xff, 0, 0, 0, 0];
const DATA: &[u8] = &[0x0f, 0xa0, 0, 0x50, 0xff, 0xff, 0xff, 0xff, 0, 0, 0, 0x65, 0x50, 0x18, 0xff, 0xff, 0, 0, 0, 0];

fn trace(out: &mut dyn Write) -> io::Result<()> {
    let mut t = Trace::new(out, 1);
    t.header(&Header::default())?;
    t.begin_listen(10, 1, 1, 80, 4)?;
    t.end_number(11, 1, 5)?;
    t.begin_open(20, 2, 0, 4000, 80)?;
    t.end_number(21, 2, 6)?;
    t.out(30, 3, 0, &[SYN])?;
    t.came(40, 4, 1, &[SYN])?;
    t.out(50, 4, 1, &[SYN_ACK])?;
    t.came(60, 3, 0, &[SYN_ACK])?;
    t.out(70, 3, 0, &[ACK])?;
    t.came(80, 4, 1, &[ACK])?;
    t.begin_accept(90, 1, 5)?;
    t.end_number(91, 1, 7)?;
    t.begin_send(100, 2, 6, b"hello")?;
    t.end_number(101, 2, 5)?;
    t.out(110, 3, 0, &[DATA, b"hello"])?;
    t.came(120, 4, 1, &[DATA, b"hello"])?;
    t.begin_recv(130, 1, 7, 100)?;
    t.end_data(131, 1, b"hello").map(|_| ())
}

fn made<'a>(host: u8, position: u64, length: u16, flags: &'a str, first: &'a [u32]) -> Made<'a> {
    let (local, remote) = if host == 0 { (4000, 80) } else { (80, 4000) };
    Made { host, local, remote, position, length, flags, window: 65535, first }
}

fn witness(out: &mut dyn Write) -> io::Result<()> {
    let mut w = Trace::new(out, 1);
    w.witness()?;
    w.step_line(10, 7, &[])?;
    w.step_effect(10, 1, "ok 5")?;
    w.step_line(11, 8, &[])?;
    w.step_line(20, 9, &[])?;
    w.step_effect(20, 2, "ok 6")?;
    w.step_line(21, 10, &[])?;
    w.step_make(30, &made(0, 0, 0, "S", &[4294967294]))?;
    w.step_line(30, 11, &[1])?;
    w.step_line(40, 12, &[11])?;
    w.step_take(41, 1, 12, 0, false, false)?;
    w.step_make(50, &made(1, 0, 0, "AS", &[100]))?;
    w.step_line(50, 13, &[2])?;
    w.step_line(60, 14, &[13])?;
    w.step_take(61, 0, 14, 2144, false, true)?;
    w.step_make(70, &made(0, 1, 0, "A", &[]))?;
    w.step_line(70, 15, &[3])?;
    w.step_line(80, 16, &[15])?;
    w.step_take(81, 1, 16, 2144, false, true)?;
    w.step_line(90, 17, &[])?;
    w.step_effect(90, 1, "ok 7")?;
    w.step_line(91, 18, &[])?;
    w.step_line(100, 19, &[])?;
    w.step_effect(100, 2, "ok 5")?;
    w.step_line(101, 20, &[])?;
    w.step_make(110, &made(0, 1, 5, "A", &[]))?;
    w.step_line(110, 21, &[4])?;
    w.step_line(120, 22, &[21])?;
    w.step_take(121, 1, 22, 2144, true, false)?;
    w.step_line(130, 23, &[])?;
    w.step_effect(130, 1, "data 68656c6c6f")?;
    w.step_line(131, 24, &[])
}

const FIRST: &[u8] = &[0x0f, 0xa0, 0, 0x50, 0, 0, 0, 99, 0, 0, 0, 0, 0x50, 0x02, 0xff, 0xff, 0, 0, 0, 0];

fn unanswered(out: &mut dyn Write) -> io::Result<()> {
    let mut t = Trace::new(&mut *out, 5);
    t.header(&Header::default())?;
    t.judged(1, Level::Full, Some(20_000))?;
    let begin = t.begin_open(0, 1, 0, 4000, 80)?;
    let end = t.end_number(1, 1, 2)?;
    let syn = t.out(10, 9, 0, &[FIRST])?;
    let last = t.finish(3_020_011)?;
    assert_eq!(LAST_THREAD, 4294967295);
    let mut w = Trace::new(out, 5);
    w.witness()?;
    w.step_line(0, begin, &[])?;
    w.step_effect(0, 1, "ok 2")?;
    w.step_line(1, end, &[])?;
    w.step_make(10, &made(0, 0, 0, "S", &[99]))?;
    w.step_line(10, syn, &[1])?;
    w.step_finish(3_020_011, last)
}

fn wanted(name: &str) -> String {
    fs::read_to_string(format!(concat!(env!("CARGO_MANIFEST_DIR"), "/../../{}"), name)).unwrap()
}

#[test]
fn a_handshake_and_five_bytes() {
    let mut out = Vec::new();
    trace(&mut out).unwrap();
    witness(&mut out).unwrap();
    assert_eq!(String::from_utf8(out).unwrap(), wanted("crates/test_cases/data/examples/handshake_and_five_bytes.case"));
}

#[test]
fn a_syn_that_is_never_retransmitted() {
    let mut out = Vec::new();
    unanswered(&mut out).unwrap();
    assert_eq!(String::from_utf8(out).unwrap(), wanted("stacks/tests/unanswered.case"));
}

#[test]
fn a_header_without_duties() {
    let mut trace = Trace::new(Vec::new(), 5);
    trace.judged(2, Level::Recovery, None).unwrap();
    assert_eq!(trace.into_inner(), b"hosts 2\ncongestion recovery\nslack any\n");
}

#[test]
fn a_trace_of_version_6() {
    for (slack, line) in [(None, "slack any"), (Some(20_000), "slack 20000")] {
        let mut trace = Trace::new(Vec::new(), 6);
        trace.judged(2, Level::None, slack).unwrap();
        trace.expired(10, 9, 0, 4000, 80, Timer::Pto).unwrap();
        let wanted = format!("hosts 2\ncongestion none\n{line}\nsender cubic\ngrowth any\n10 9 T 0 4000 80 pto\n");
        assert_eq!(String::from_utf8(trace.into_inner()).unwrap(), wanted);
    }
}
