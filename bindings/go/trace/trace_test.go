// Writes cases: crates/test_cases/data/examples/handshake_and_five_bytes.case, a handshake and the five bytes of `hello`;
// unanswered.case, a SYN that is never retransmitted; and the end of a header without duties.
package trace

import (
	"bytes"
	"os"
	"testing"
)

var (
	syn    = []byte{0x0f, 0xa0, 0, 0x50, 0xff, 0xff, 0xff, 0xfe, 0, 0, 0, 0, 0x50, 0x02, 0xff, 0xff, 0, 0, 0, 0}
	synAck = []byte{0, 0x50, 0x0f, 0xa0, 0, 0, 0, 0x64, 0xff, 0xff, 0xff, 0xff, 0x50, 0x12, 0xff, 0xff, 0, 0, 0, 0}
	ack    = []byte{0x0f, 0xa0, 0, 0x50, 0xff, 0xff, 0xff, 0xff, 0, 0, 0, 0x65, 0x50, 0x10, 0xff, 0xff, 0, 0, 0, 0}
	data   = []byte{0x0f, 0xa0, 0, 0x50, 0xff, 0xff, 0xff, 0xff, 0, 0, 0, 0x65, 0x50, 0x18, 0xff, 0xff, 0, 0, 0, 0}
)

func writeTrace(t *Trace) {
	t.Header(0, 120000000, 1000, 1000000, 0, 5681)
	t.BeginListen(10, 1, 1, 80, 4)
	t.EndNumber(11, 1, 5)
	t.BeginOpen(20, 2, 0, 4000, 80)
	t.EndNumber(21, 2, 6)
	t.Out(30, 3, 0, syn)
	t.In(40, 4, 1, syn)
	t.Out(50, 4, 1, synAck)
	t.In(60, 3, 0, synAck)
	t.Out(70, 3, 0, ack)
	t.In(80, 4, 1, ack)
	t.BeginAccept(90, 1, 5)
	t.EndNumber(91, 1, 7)
	t.BeginSend(100, 2, 6, []byte("hello"))
	t.EndNumber(101, 2, 5)
	t.Out(110, 3, 0, data, []byte("hello"))
	t.In(120, 4, 1, data, []byte("hello"))
	t.BeginRecv(130, 1, 7, 100)
	t.EndData(131, 1, []byte("hello"))
}

func made(host int, position uint64, length int, flags string, first ...uint32) Made {
	m := Made{Host: host, Local: 4000, Remote: 80, Position: position, Length: length, Flags: flags, Window: 65535, First: first}
	if host == 1 {
		m.Local, m.Remote = 80, 4000
	}
	return m
}

func writeWitness(w *Trace) {
	w.Witness()
	w.StepLine(10, 7)
	w.StepEffect(10, 1, "ok 5")
	w.StepLine(11, 8)
	w.StepLine(20, 9)
	w.StepEffect(20, 2, "ok 6")
	w.StepLine(21, 10)
	w.StepMake(30, made(0, 0, 0, "S", 4294967294))
	w.StepLine(30, 11, 1)
	w.StepLine(40, 12, 11)
	w.StepTake(41, 1, 12, 0, false, false)
	w.StepMake(50, made(1, 0, 0, "AS", 100))
	w.StepLine(50, 13, 2)
	w.StepLine(60, 14, 13)
	w.StepTake(61, 0, 14, 2144, false, true)
	w.StepMake(70, made(0, 1, 0, "A"))
	w.StepLine(70, 15, 3)
	w.StepLine(80, 16, 15)
	w.StepTake(81, 1, 16, 2144, false, true)
	w.StepLine(90, 17)
	w.StepEffect(90, 1, "ok 7")
	w.StepLine(91, 18)
	w.StepLine(100, 19)
	w.StepEffect(100, 2, "ok 5")
	w.StepLine(101, 20)
	w.StepMake(110, made(0, 1, 5, "A"))
	w.StepLine(110, 21, 4)
	w.StepLine(120, 22, 21)
	w.StepTake(121, 1, 22, 2144, true, false)
	w.StepLine(130, 23)
	w.StepEffect(130, 1, "data 68656c6c6f")
	w.StepLine(131, 24)
}

func writeUnanswered(t, w *Trace) {
	first := []byte{0x0f, 0xa0, 0, 0x50, 0, 0, 0, 99, 0, 0, 0, 0, 0x50, 0x02, 0xff, 0xff, 0, 0, 0, 0}
	t.Header(0, 120000000, 1000, 1000000, 0, 5681)
	t.Judged(1, Full, 20000)
	begin := t.BeginOpen(0, 1, 0, 4000, 80)
	end := t.EndNumber(1, 1, 2)
	line := t.Out(10, 9, 0, first)
	last := t.Finish(3020011)
	w.Witness()
	w.StepLine(0, begin)
	w.StepEffect(0, 1, "ok 2")
	w.StepLine(1, end)
	w.StepMake(10, made(0, 0, 0, "S", 99))
	w.StepLine(10, line, 1)
	w.StepFinish(3020011, last)
}

// compare compares a text with a file of the repository.
func compare(t *testing.T, text *bytes.Buffer, name string) {
	wanted, err := os.ReadFile("../../../" + name)
	if err != nil {
		t.Fatal(err)
	}
	if !bytes.Equal(text.Bytes(), wanted) {
		t.Fatalf("the case differs:\n%s", text.String())
	}
}

func TestHandshake(t *testing.T) {
	var text bytes.Buffer
	writeTrace(New(&text, 1))
	writeWitness(New(&text, 1))
	compare(t, &text, "crates/test_cases/data/examples/handshake_and_five_bytes.case")
}

func TestUnanswered(t *testing.T) {
	var text bytes.Buffer
	writeUnanswered(New(&text, 5), New(&text, 5))
	compare(t, &text, "stacks/tests/unanswered.case")
}

func TestVersion6(t *testing.T) {
	for slack, line := range map[uint64]string{Any: "slack any", 20000: "slack 20000"} {
		var text bytes.Buffer
		w := New(&text, 6)
		w.Judged(2, None, slack)
		w.Expired(10, 9, 0, 4000, 80, PTO)
		wanted := "hosts 2\ncongestion none\n" + line + "\nsender cubic\ngrowth any\n10 9 T 0 4000 80 pto\n"
		if text.String() != wanted {
			t.Fatalf("the trace differs:\n%s", text.String())
		}
	}
}

func TestWithoutDuties(t *testing.T) {
	var text bytes.Buffer
	New(&text, 5).Judged(2, Recovery, Any)
	if text.String() != "hosts 2\ncongestion recovery\nslack any\n" {
		t.Fatalf("the header differs:\n%s", text.String())
	}
}
