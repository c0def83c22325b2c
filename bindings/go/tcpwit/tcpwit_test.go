package tcpwit

import (
	"bytes"
	"os"
	"strings"
	"sync"
	"testing"

	"tcpwit/trace"
)

const top = "../../../"

// contents returns the bytes of a file of the repository.
func contents(t *testing.T, name string) []byte {
	text, err := os.ReadFile(top + name)
	if err != nil {
		t.Fatal(err)
	}
	return text
}

// cases returns the bytes of each case, and the lines that `tcpwit check` prints for them.
func cases(t *testing.T) (texts [][]byte, lines []string) {
	for _, row := range strings.Split(strings.TrimSpace(string(contents(t, "crates/test_cases/data/expected.txt"))), "\n") {
		name, line, _ := strings.Cut(row, "\t")
		texts = append(texts, contents(t, "crates/test_cases/data/"+name+".case"))
		lines = append(lines, line)
	}
	return texts, lines
}

func said(text []byte) string {
	verdict, err := Check(text)
	if err != nil {
		return err.Error()
	}
	return verdict.String()
}

// traceOf returns the trace in a case.
func traceOf(text []byte) []byte { return text[:bytes.Index(text, []byte("\nwitness "))+1] }

func TestEachCaseHasItsLine(t *testing.T) {
	texts, lines := cases(t)
	if len(texts) < 1800 {
		t.Fatalf("only %d cases", len(texts))
	}
	for i, text := range texts {
		if got := said(text); got != lines[i] {
			t.Errorf("case %d: %s, not %s", i, got, lines[i])
		}
	}
}

func TestGoroutinesAgree(t *testing.T) {
	texts, lines := cases(t)
	var group sync.WaitGroup
	for worker := 0; worker < 8; worker++ {
		group.Add(1)
		go func() {
			defer group.Done()
			for i := 0; i < len(texts); i += 20 {
				if got := said(texts[i]); got != lines[i] {
					t.Errorf("case %d: %s, not %s", i, got, lines[i])
				}
			}
		}()
	}
	group.Wait()
}

func TestTwoTexts(t *testing.T) {
	text := contents(t, "examples/handshake.case")
	lines := traceOf(text)
	if verdict, err := CheckTwo(lines, text[len(lines):]); err != nil || verdict.String() != "yes 18 13" {
		t.Fatal(verdict, err)
	}
	if _, err := CheckTwo(lines, nil); err == nil || err.(*TextError).Text != "witness" {
		t.Fatal(err)
	}
}

func TestRules(t *testing.T) {
	if Rule(0) != "" || Rule(1) != "line-range" || Rule(54) != "echo" || Rule(57) != "answer-late" || Rule(58) != "" {
		t.Fatal("other names")
	}
}

func TestLab(t *testing.T) {
	text := contents(t, "stacks/recorded/lwip-hostile-ack-despite-nagle.case")
	judgement, err := Judge(traceOf(text), UsualSlack, UsualBudget)
	if err != nil || judgement.Meets(None) || !strings.HasPrefix(judgement.String(), "full      no 25 25 ack-late\n") {
		t.Fatal(judgement, err)
	}
	if judgement, err = Judge(traceOf(text), AnySlack, UsualBudget); err != nil || !judgement.Meets(Full) {
		t.Fatal(judgement, err)
	}
	if _, err = Judge(traceOf(text), 1e18+1, 0); err != ErrSlack {
		t.Fatal(err)
	}
	if explained, err := Explain(text, true); err != nil || !bytes.HasPrefix(explained, []byte("no 25 25 ack-late\nthe step: ")) {
		t.Fatal(string(explained), err)
	}
	if remarks, err := Remark(text); err != nil || len(remarks) != 0 {
		t.Fatal(string(remarks), err)
	}
	found, err := Find(traceOf(text), UsualBudget)
	if err != nil || said(found) != "no 25 25 ack-late" {
		t.Fatal(said(found), err)
	}
	if _, err = Find([]byte("trace 1\n"), 0); err == nil || err.Error() != "bad trace 2 0 0 header" {
		t.Fatal(err)
	}
}

func TestTrace(t *testing.T) {
	var text bytes.Buffer
	syn := []byte{0x0f, 0xa0, 0, 80, 0, 0, 0, 99, 0, 0, 0, 0, 0x50, 2, 0xff, 0xff, 0, 0, 0, 0}
	written := trace.New(&text, 5)
	written.Header(0, 120000000, 1000, 1000000, 0, 5681)
	written.Judged(1, trace.Full, 20000)
	written.BeginOpen(0, 1, 0, 4000, 80)
	written.EndNumber(1, 1, 2)
	written.Out(10, 9, 0, syn)
	written.Finish(1000000)
	if judgement, err := Judge(text.Bytes(), UsualSlack, UsualBudget); err != nil || !judgement.Meets(Full) {
		t.Fatal(judgement, err)
	}
}
