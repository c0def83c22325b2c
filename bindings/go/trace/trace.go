// Package trace writes the lines of a trace and of a witness from the hooks of a stack (docs/reference/formats.md,
// docs/how-to/own-traces.md).
//
//	t := trace.New(file, 5)
//	t.Header(0, 60000000, 1000, 200000, 0, 5681)
//	t.Judged(2, trace.Full, 20000)
//	t.BeginSend(now, thread, socket, bytes)   // before the call does anything
//	t.EndNumber(now, thread, taken)           // after it: the number of accepted bytes
//	t.Out(now, 90+host, host, header, payload)
//	t.Finish(now)                             // when the recording stops
//
// Arguments of all methods:
//
//   - moment: microseconds on one clock for both hosts, from any start. A moment that goes back is written as the previous one.
//   - thread: a number for each calling thread, and different ones, for each host, for segments received, segments sent and timers. The
//     lines of one thread keep their order, and a thread has at most one open call. Goroutines have no number: count them yourself.
//     LastThread is taken.
//   - host: 0 or 1. Always 0 if only host 0 is recorded (version 3, or a later one with hosts 1).
//   - socket: numbers from 1 that you choose: use each one only once in a trace, for a listener or an opened or accepted connection.
//   - a segment: from the first byte of the TCP header to the last of the payload, without IP, in any number of parts.
//
// Each method that writes a line of a trace returns its number. A witness refers to lines by these numbers. Goroutines may share a trace:
// a lock keeps each line whole. Err holds the writer's first error; nothing is written after it.
package trace

import (
	"encoding/hex"
	"fmt"
	"io"
	"math"
	"strings"
	"sync"
)

// Trace writes lines. Use another one for a witness.
type Trace struct {
	Err     error
	mu      sync.Mutex
	to      io.Writer
	version int
	line    uint32
	moment  uint64
}

// New returns a writer of format version 1, 2, 3, 5 or 6. Version 6 reads SACK blocks, and has no level Full.
func New(to io.Writer, version int) *Trace { return &Trace{to: to, version: version} }

// Answers without a number or bytes.
const (
	OK        = "ok"
	Again     = "again"     // not yet
	EOF       = "eof"       // all bytes up to the peer's FIN were received
	Closed    = "closed"    // sending was shut down, or the connection is gone: EPIPE
	NotConn   = "notconn"   // ENOTCONN
	Refused   = "refused"   // ECONNREFUSED
	Reset     = "reset"     // ECONNRESET
	Timeout   = "timeout"   // ETIMEDOUT
	InUse     = "inuse"     // EADDRINUSE
	BadSocket = "badsocket" // EBADF
)

// Timers.
const (
	RTO     = "rto"
	Persist = "persist"
	TwoMSL  = "2msl"
	GiveUp  = "giveup"
	PTO     = "pto" // of a tail loss probe (RFC 8985, 7), in version 6
)

// How much of congestion control is judged, from strict to lax.
const (
	Full     = "full"
	Recovery = "recovery"
	None     = "none"
)

// Any is a slack with which no duty and no limit is judged.
const Any = math.MaxUint64

// LastThread is the thread of Finish.
const LastThread = math.MaxUint32

func (t *Trace) write(format string, what ...any) uint32 {
	if t.Err == nil {
		_, t.Err = fmt.Fprintf(t.to, format+"\n", what...)
	}
	t.line++
	return t.line
}

func (t *Trace) event(moment uint64, thread uint32, format string, what ...any) uint32 {
	t.mu.Lock()
	defer t.mu.Unlock()
	if moment > t.moment {
		t.moment = moment
	}
	return t.write("%d %d "+format, append([]any{t.moment, thread}, what...)...)
}

// Header writes the header. Call it first. skew: 0 if one clock stamps everything. msl: the maximum segment lifetime, half of the length of
// TIME-WAIT. grain: the tick of the timers' clock. minrto: the minimum retransmission timeout. These are in microseconds. extra: how many children a
// queue holds beyond its backlog. initial: 5681 or 6928, the RFC of the initial window; not written in version 1. If in doubt, a smaller minrto and
// a larger grain and extra are less strict. From version 5 on, Judged follows; an expiry may also be too late, so a minrto that is too small needs more
// slack.
func (t *Trace) Header(skew, msl, grain, minrto uint64, extra uint32, initial int) {
	t.mu.Lock()
	defer t.mu.Unlock()
	t.write("trace %d", t.version)
	t.write("skew %d", skew)
	t.write("msl %d", msl)
	t.write("grain %d", grain)
	t.write("minrto %d", minrto)
	t.write("extra %d", extra)
	if t.version > 1 {
		t.write("initial %d", initial)
	}
	if t.version == 3 {
		t.write("half 0")
	}
}

// Judged writes the rest of the header from version 5 on: what is judged. hosts: 2, or 1 if only host 0 is recorded. congestion: Full, Recovery or None.
// slack: by how many microseconds a host may be late with what it has to do, such as an acknowledgment or a retransmission; Any if that isn't judged.
// On a simulated clock, 20,000 is enough. Add the tick of your stack's slowest timer, and on a real clock how long it may wait until it runs.
// In version 6, two lines follow that have no effect below Full.
func (t *Trace) Judged(hosts int, congestion string, slack uint64) {
	t.mu.Lock()
	defer t.mu.Unlock()
	t.write("hosts %d", hosts)
	t.write("congestion %s", congestion)
	if slack == Any {
		t.write("slack any")
	} else {
		t.write("slack %d", slack)
	}
	if t.version == 6 {
		t.write("sender cubic")
		t.write("growth any")
	}
}

// BeginListen and the other Begins record that a call begins, before the stack does anything for it.
func (t *Trace) BeginListen(moment uint64, thread uint32, host int, port, backlog uint16) uint32 {
	return t.event(moment, thread, "B listen %d %d %d", host, port, backlog)
}

// BeginOpen is a connect, blocking or not. It ends at once with a number; use BeginAwait for whether the connection is established.
func (t *Trace) BeginOpen(moment uint64, thread uint32, host int, local, remote uint16) uint32 {
	return t.event(moment, thread, "B open %d %d %d", host, local, remote)
}

// BeginAwait reports whether the connection is established.
func (t *Trace) BeginAwait(moment uint64, thread, socket uint32) uint32 {
	return t.event(moment, thread, "B await %d", socket)
}

// BeginAccept requests the first child in a listener's queue.
func (t *Trace) BeginAccept(moment uint64, thread, listener uint32) uint32 {
	return t.event(moment, thread, "B accept %d", listener)
}

// BeginSend has 1 to 65,535 bytes to send.
func (t *Trace) BeginSend(moment uint64, thread, socket uint32, bytes []byte) uint32 {
	return t.event(moment, thread, "B send %d %x", socket, bytes)
}

// BeginRecv requests at most this many bytes, 1 to 65,535.
func (t *Trace) BeginRecv(moment uint64, thread, socket, most uint32) uint32 {
	return t.event(moment, thread, "B recv %d %d", socket, most)
}

// BeginShut shuts down sending: CloseWrite.
func (t *Trace) BeginShut(moment uint64, thread, socket uint32) uint32 {
	return t.event(moment, thread, "B shut %d", socket)
}

// BeginClose closes.
func (t *Trace) BeginClose(moment uint64, thread, socket uint32) uint32 {
	return t.event(moment, thread, "B close %d", socket)
}

// BeginAbort aborts with a reset: a linger of 0 and Close.
func (t *Trace) BeginAbort(moment uint64, thread, socket uint32) uint32 {
	return t.event(moment, thread, "B abort %d", socket)
}

// BeginStatus requests the state.
func (t *Trace) BeginStatus(moment uint64, thread, socket uint32) uint32 {
	return t.event(moment, thread, "B status %d", socket)
}

// End and the other Ends record that a call ends, once the answer is known. A call that still waits has no such line. End has an answer without
// a value: await, shut, close, abort, and every failure. If the system reports a fault only once, repeat it yourself.
func (t *Trace) End(moment uint64, thread uint32, answer string) uint32 {
	return t.event(moment, thread, "E %s", answer)
}

// EndNumber is `ok` with the socket of listen, open and accept, or with how many bytes a send accepted, at least 1.
func (t *Trace) EndNumber(moment uint64, thread, number uint32) uint32 {
	return t.event(moment, thread, "E ok %d", number)
}

// EndData is a recv that returned bytes, at least 1. If it returned none because the peer's stream ended: End with EOF.
func (t *Trace) EndData(moment uint64, thread uint32, bytes []byte) uint32 {
	return t.event(moment, thread, "E data %x", bytes)
}

// EndState is the state, by its name in RFC 9293, 3.3.2: "SYN-SENT".
func (t *Trace) EndState(moment uint64, thread uint32, state string) uint32 {
	return t.event(moment, thread, "E state %s", state)
}

func joined(parts [][]byte) string {
	var text strings.Builder
	for _, part := range parts {
		text.WriteString(hex.EncodeToString(part))
	}
	return text.String()
}

// Out is a segment that is sent: call it where the stack passes it to IP, with the bytes that the peer will see.
func (t *Trace) Out(moment uint64, thread uint32, host int, parts ...[]byte) uint32 {
	return t.event(moment, thread, "O %d %s", host, joined(parts))
}

// In is a segment that arrived: call it before the stack examines it, even if the stack will drop it.
func (t *Trace) In(moment uint64, thread uint32, host int, parts ...[]byte) uint32 {
	return t.event(moment, thread, "I %d %s", host, joined(parts))
}

// Expired is a timer that expired: RTO, Persist, TwoMSL, GiveUp or PTO. Call it before the timer's effects.
func (t *Trace) Expired(moment uint64, thread uint32, host int, local, remote uint16, timer string) uint32 {
	return t.event(moment, thread, "T %d %d %d %s", host, local, remote, timer)
}

// Finish records that the recording stops: a call that changes nothing shows how long it lasted, without which nothing is late after the last event.
// Write no line after it. It is on a thread of its own, and about socket 0, which must not exist. It returns the number of its second line.
func (t *Trace) Finish(moment uint64) uint32 {
	t.BeginStatus(moment, LastThread, 0)
	return t.End(moment, LastThread, BadSocket)
}

// ---- A witness, if your stack knows more than a trace shows. Write it to a separate place, and append it to the trace at the end ----

func (t *Trace) step(moment uint64, format string, what ...any) {
	t.mu.Lock()
	defer t.mu.Unlock()
	if moment > t.moment {
		t.moment = moment
	}
	t.write("%d "+format, append([]any{t.moment}, what...)...)
}

// Witness writes the first line.
func (t *Trace) Witness() {
	t.mu.Lock()
	defer t.mu.Unlock()
	t.write("witness %d", t.version)
}

// StepLine places a line of the trace, with its numbers: none for B, E, and timers except rto; for an O line, the number of the made segment, counted
// from 1 over both hosts; for an I line, the O line that it copies, or none if only host 0 is recorded; for rto, cwnd and ssthresh after it.
func (t *Trace) StepLine(moment uint64, line uint32, numbers ...uint32) {
	text := ""
	for _, number := range numbers {
		text += fmt.Sprintf(" %d", number)
	}
	t.step(moment, "L %d%s", line, text)
}

// StepEffect is the effect of a thread's open call, with its answer in the words of a trace: "ok 5", "data 6869", "state LISTEN".
func (t *Trace) StepEffect(moment uint64, thread uint32, answer string) {
	t.step(moment, "D %d %s", thread, answer)
}

// StepFinish writes the steps of Finish, whose second line has this number.
func (t *Trace) StepFinish(moment uint64, line uint32) {
	t.StepLine(moment, line-1)
	t.StepEffect(moment, LastThread, BadSocket)
	t.StepLine(moment, line)
}

// Made is a segment in a witness.
type Made struct {
	Host          int
	Local, Remote uint16
	Position      uint64 // of its first sequence number: 0 for the SYN, 1 for the first byte
	Length        int
	Flags         string   // letters of ARSF, or "-"
	Window        uint16   // the header field
	First         []uint32 // for the first SYN of an endpoint: its sequence number, and from version 2 on optionally its shift
}

// StepMake makes a segment.
func (t *Trace) StepMake(moment uint64, m Made) {
	text := ""
	for _, number := range m.First {
		text += fmt.Sprintf(" %d", number)
	}
	t.step(moment, "M %d %d %d %d %d %s %d%s", m.Host, m.Local, m.Remote, m.Position, m.Length, m.Flags, m.Window, text)
}

func bit(b bool) int {
	if b {
		return 1
	}
	return 0
}

// StepTake processes the segment of an I line: the congestion window afterwards, whether its bytes were kept, whether the round trip was measured.
func (t *Trace) StepTake(moment uint64, host int, line, cwnd uint32, kept, measured bool) {
	t.step(moment, "T %d %d %d %d %d", host, line, cwnd, bit(kept), bit(measured))
}

// StepDrop drops the segment of an I line.
func (t *Trace) StepDrop(moment uint64, host int, line uint32) { t.step(moment, "K %d %d", host, line) }

// StepReset answers the segment of an I line with a reset, which counts as a made segment.
func (t *Trace) StepReset(moment uint64, host int, line uint32) {
	t.step(moment, "R %d %d", host, line)
}

// StepRecovery begins fast recovery, with this congestion window and threshold.
func (t *Trace) StepRecovery(moment uint64, host int, local, remote uint16, cwnd, ssthresh uint32) {
	t.step(moment, "F %d %d %d %d %d", host, local, remote, cwnd, ssthresh)
}
