// Package tcpwit checks recorded runs of TCP hosts against RFC 9293, 5681 and 6298. It calls the library for C, libtcpwit.
//
//	verdict, err := tcpwit.Check(text)
//	if err == nil && !verdict.Yes {
//		fmt.Println(verdict) // such as: no 34 0 queue-full
//	}
//
// If the library isn't installed, set CGO_CFLAGS to -I and CGO_LDFLAGS to -L and the folder that bindings/c/build made. Any number of
// goroutines may call the functions.
package tcpwit

/*
#cgo LDFLAGS: -ltcpwit
#include <stdlib.h>
#include <tcpwit.h>
*/
import "C"

import (
	"errors"
	"fmt"
	"strings"
	"unsafe"
)

// Verdict is the verdict on a case. It prints as `tcpwit check` prints it.
type Verdict struct {
	// Yes says whether the witness explains the trace.
	Yes bool
	// Lines and Hidden are numbers of a yes: how many event lines the trace has, and how many steps of the witness use no line.
	Lines, Hidden uint64
	// WitnessLine is the line of the first step that breaks a rule, in the witness; 0 if something is left at the end. TraceLine is
	// the line of the trace that the step names; 0 if it names none.
	WitnessLine, TraceLine uint64
	// Rule is the name of the rule, such as "ack-late".
	Rule string
}

func (v Verdict) String() string {
	if v.Yes {
		return fmt.Sprintf("yes %d %d", v.Lines, v.Hidden)
	}
	return fmt.Sprintf("no %d %d %s", v.WitnessLine, v.TraceLine, v.Rule)
}

// TextError says that a text can't be read.
type TextError struct {
	// Text is "trace" or "witness".
	Text string
	// Line counts from 1 in this text; Start and Stop count bytes of the line from 0.
	Line, Start, Stop uint64
	// Fault is the name of the fault, such as "header".
	Fault string
}

func (e *TextError) Error() string {
	return fmt.Sprintf("bad %s %d %d %d %s", e.Text, e.Line, e.Start, e.Stop, e.Fault)
}

// ErrMemory says that memory ran out.
var ErrMemory = errors.New("bad memory")

// ErrSlack says that a slack is above 10^18 microseconds.
var ErrSlack = errors.New("bad usage: the slack is too large")

// The names of the faults, by their numbers.
var faults = map[uint32]string{
	1: "header", 2: "field", 3: "number", 4: "hex", 5: "segment short", 6: "segment offset", 7: "segment option-length",
	8: "segment too-long", 10: "moment-falls", 11: "line-too-long", 12: "cut", 13: "too-many-lines",
}

// pointer returns a text as C takes it. Its memory must stay alive during the call.
func pointer(text []byte) (*C.char, C.size_t) {
	if len(text) == 0 {
		text = []byte{0}[:1]
		return (*C.char)(unsafe.Pointer(&text[0])), 0
	}
	return (*C.char)(unsafe.Pointer(&text[0])), C.size_t(len(text))
}

// read returns what the numbers of an answer say.
func read(answer *C.struct_tcpwit_result) (Verdict, error) {
	switch answer.kind {
	case C.TCPWIT_YES:
		return Verdict{Yes: true, Lines: uint64(answer.lines), Hidden: uint64(answer.hidden)}, nil
	case C.TCPWIT_NO:
		rule := Rule(uint32(answer.rule))
		return Verdict{WitnessLine: uint64(answer.witness_line), TraceLine: uint64(answer.trace_line), Rule: rule}, nil
	case C.TCPWIT_BAD_TRACE, C.TCPWIT_BAD_WITNESS:
		text := "trace"
		if answer.kind == C.TCPWIT_BAD_WITNESS {
			text = "witness"
		}
		start, stop := uint64(answer.fault_start), uint64(answer.fault_stop)
		return Verdict{}, &TextError{text, uint64(answer.fault_line), start, stop, faults[uint32(answer.fault)]}
	default:
		return Verdict{}, ErrMemory
	}
}

// Check returns the verdict on a case: a trace, and then its witness. The error is a *TextError or ErrMemory.
func Check(text []byte) (Verdict, error) {
	var answer C.struct_tcpwit_result
	at, length := pointer(text)
	C.tcpwit_check(at, length, &answer)
	return read(&answer)
}

// CheckTwo returns the verdict on a case whose trace and witness are two texts.
func CheckTwo(trace, witness []byte) (Verdict, error) {
	var answer C.struct_tcpwit_result
	lines, linesLength := pointer(trace)
	steps, stepsLength := pointer(witness)
	C.tcpwit_check_two(lines, linesLength, steps, stepsLength, &answer)
	return read(&answer)
}

// Rule returns the name of the rule with this number: 1 to 57. For another number it returns "".
func Rule(number uint32) string {
	var name [32]byte
	length := C.tcpwit_rule_name(C.uint32_t(number), (*C.char)(unsafe.Pointer(&name[0])), C.size_t(len(name)))
	return string(name[:length])
}

// taken returns the bytes of a text, which it frees.
func taken(said *C.struct_tcpwit_text) []byte {
	bytes := C.GoBytes(unsafe.Pointer(said.bytes), C.int(said.length))
	C.tcpwit_text_free(said)
	return bytes
}

// given returns the text, or the error that the status stands for.
func given(status C.uint32_t, text []byte) ([]byte, error) {
	switch status {
	case C.TCPWIT_STATUS_REFUSED:
		return nil, refusal(string(text))
	case C.TCPWIT_STATUS_USAGE:
		return nil, ErrSlack
	case C.TCPWIT_STATUS_MEMORY:
		return nil, ErrMemory
	default:
		return text, nil
	}
}

// refusal returns the error that a line of the library says.
func refusal(line string) error {
	e := &TextError{}
	line = strings.TrimSuffix(line, "\n")
	if n, _ := fmt.Sscanf(line, "bad %s %d %d %d", &e.Text, &e.Line, &e.Start, &e.Stop); n != 4 {
		return errors.New(line)
	}
	e.Fault = strings.SplitN(line, " ", 6)[5]
	return e
}

// Explain returns what `tcpwit_lab explain` prints: the answer, and after a no or a fault what it is about. If simulated, it leaves out
// causes that only captured segments have.
func Explain(text []byte, simulated bool) ([]byte, error) {
	var said C.struct_tcpwit_text
	at, length := pointer(text)
	if C.tcpwit_explain(at, length, C.bool(simulated), &said) == C.TCPWIT_STATUS_MEMORY {
		return nil, ErrMemory
	}
	return taken(&said), nil
}

// Remark returns suspicious behavior in a case that breaks no rule, a line for each.
func Remark(text []byte) ([]byte, error) {
	var said C.struct_tcpwit_text
	at, length := pointer(text)
	status := C.tcpwit_remark(at, length, &said)
	return given(status, taken(&said))
}

// UsualBudget is how many steps the search may spend on going back for one line, if nothing else is known.
const UsualBudget = 1000000

// Find returns a case of the trace, with the witness that the search found. If it found none, Check refuses the case.
func Find(trace []byte, budget uint64) ([]byte, error) {
	var said C.struct_tcpwit_text
	at, length := pointer(trace)
	status := C.tcpwit_find(at, length, C.uint64_t(budget), &said)
	return given(status, taken(&said))
}

// Level is how much of congestion control is judged, from strict to lax.
type Level int

// The levels. NoLevel says that no level has a yes.
const (
	Full Level = iota
	Recovery
	None
	NoLevel
)

// A slack is in microseconds, at most 10^18, or one of these.
const (
	// UsualSlack is the slack of a trace of version 5 or 6, else a second.
	UsualSlack = 1<<64 - 1
	// AnySlack leaves duties unjudged.
	AnySlack = 1<<64 - 2
)

// Judgement says how a trace was judged.
type Judgement struct {
	// Level is the strictest level with a yes.
	Level Level
	// Text is what `tcpwit_lab judge` prints.
	Text string
	// Case is the case of the last level that was tried.
	Case []byte
}

// Meets says whether this level or a stricter one has a yes.
func (j Judgement) Meets(least Level) bool { return j.Level <= least && j.Level != NoLevel }

func (j Judgement) String() string { return j.Text }

// Judge judges a trace at each level until one has a yes. The budget bounds what the search spends on going back.
func Judge(trace []byte, slack, budget uint64) (Judgement, error) {
	var judgement C.struct_tcpwit_judgement
	at, length := pointer(trace)
	status := C.tcpwit_judge(at, length, C.uint64_t(slack), C.uint64_t(budget), &judgement)
	said, found := taken(&judgement.said), taken(&judgement.found)
	text, err := given(status, said)
	if err != nil {
		return Judgement{Level: NoLevel}, err
	}
	return Judgement{Level(judgement.level), string(text), found}, nil
}
