package keyset

import (
	"errors"
	"fmt"
	"strings"
	"sync"
	"testing"
)

var lines = []string{
	"add-ksk K1 - 13 2 0 yes",
	"add-zsk Z1 - 13 3 0 yes",
	"start algorithm-roll - K1,Z1 10",
}

func open(t *testing.T) *Session {
	t.Helper()
	zone, err := Open("zone example.com")
	if err != nil {
		t.Fatal(err)
	}
	t.Cleanup(zone.Close)
	return zone
}

func accept(t *testing.T, zone *Session, line string) []string {
	t.Helper()
	actions, err := zone.Accept(line)
	if err != nil {
		t.Fatalf("%s: %v", line, err)
	}
	return actions
}

func TestSessionAnswersAsScript(t *testing.T) {
	zone := open(t)
	answers := ""
	for _, line := range lines {
		answers += strings.TrimSpace("ok "+strings.Join(accept(t, zone, line), " ")) + "\n"
	}
	closing, err := zone.Closing()
	if err != nil {
		t.Fatal(err)
	}
	script := "zone example.com\n" + strings.Join(lines, "\n") + "\n"
	whole, err := Answer([]byte(script))
	if err != nil || string(whole) != answers+closing {
		t.Fatalf("a script is answered %q (%v), and a session %q", whole, err, answers+closing)
	}
	if zone.Calls() != len(lines) {
		t.Fatalf("%d calls", zone.Calls())
	}
}

func TestRefusedCallLeavesAll(t *testing.T) {
	zone := open(t)
	for _, line := range lines {
		accept(t, zone, line)
	}
	before, _ := zone.Status()
	var refused *RefusedError
	if _, err := zone.Accept("wait1 algorithm-roll 20"); !errors.As(err, &refused) {
		t.Fatalf("an early wait: %v", err)
	}
	if after, _ := zone.Status(); string(after) != string(before) || zone.Calls() != len(lines) {
		t.Fatal("a refused call changes the session")
	}
	var malformed *MalformedError
	if _, err := zone.Accept("wait3"); !errors.As(err, &malformed) {
		t.Fatalf("a malformed line: %v", err)
	}
	if _, err := Answer([]byte("zone example.com\nwait3\n")); err == nil ||
		err.Error() != "line 2: malformed" {
		t.Fatalf("a malformed script: %v", err)
	}
	if _, err := Open("example.com"); !errors.As(err, &malformed) {
		t.Fatalf("a line without a zone: %v", err)
	}
}

func TestNotes(t *testing.T) {
	zone := open(t)
	for _, line := range lines {
		accept(t, zone, line)
	}
	if _, err := zone.Due(100); !errors.Is(err, ErrNoNotes) {
		t.Fatalf("a session without notes: %v", err)
	}
	notes := []string{
		"before 60 60 60", "published dnskey 3 60 20", "published zone 3 60 20",
		"everywhere dnskey 30", "everywhere zone 30",
	}
	for _, line := range notes {
		if err := zone.Note(line); err != nil {
			t.Fatalf("%s: %v", line, err)
		}
	}
	due, err := zone.Due(100)
	if err != nil || !strings.HasPrefix(due, "report1 algorithm-roll ") {
		t.Fatalf("due: %q (%v)", due, err)
	}
	var refused *RefusedError
	if err := zone.Note("published dnskey 9 60 40"); !errors.As(err, &refused) {
		t.Fatalf("a note of a call that wasn't made: %v", err)
	}
	if err := zone.ForgoNotes(); err != nil {
		t.Fatal(err)
	}
	if err := zone.Note(notes[0]); !errors.As(err, &refused) {
		t.Fatalf("a note of a session that forgoes them: %v", err)
	}
	if _, err := zone.Due(100); !errors.Is(err, ErrNoNotes) {
		t.Fatalf("a session that forgoes notes: %v", err)
	}
}

func TestLongAnswerGetsItsRoom(t *testing.T) {
	script := "zone example.com\n"
	for i := 0; i < 4000; i++ {
		script += fmt.Sprintf("add-public P%d 13 %d 0 yes\n", i, i+1)
	}
	answer, err := Answer([]byte(script))
	if err != nil || strings.Count(string(answer), "ok\n") != 4000 {
		t.Fatalf("%d bytes, %v", len(answer), err)
	}
}

func TestCopyAndClose(t *testing.T) {
	zone := open(t)
	accept(t, zone, lines[0])
	other, err := zone.Copy()
	if err != nil {
		t.Fatal(err)
	}
	accept(t, other, lines[1])
	if zone.Calls() != 1 || other.Calls() != 2 {
		t.Fatal("a copy isn't apart")
	}
	other.Close()
	other.Close()
	if _, err := other.Accept(lines[1]); !errors.Is(err, ErrClosed) {
		t.Fatalf("a closed session: %v", err)
	}
}

// Goroutines ask one session while another makes calls on it.
func TestSideBySide(t *testing.T) {
	zone := open(t)
	var group sync.WaitGroup
	for reader := 0; reader < 8; reader++ {
		group.Add(1)
		go func() {
			defer group.Done()
			for i := 0; i < 200; i++ {
				if _, err := zone.Status(); err != nil {
					t.Error(err)
					return
				}
			}
		}()
	}
	for i := 0; i < 200; i++ {
		accept(t, zone, fmt.Sprintf("add-public P%d 13 %d 0 yes", i, i+1))
	}
	group.Wait()
	if zone.Calls() != 200 {
		t.Fatalf("%d calls", zone.Calls())
	}
}

func ExampleSession() {
	zone, err := Open("zone example.com")
	if err != nil {
		fmt.Println(err)
		return
	}
	defer zone.Close()
	for _, line := range lines {
		actions, err := zone.Accept(line)
		fmt.Println(actions, err)
	}
	// Output:
	// [] <nil>
	// [] <nil>
	// [UpdateDnskeyRrset UpdateRrsig ReportDnskeyPropagated ReportRrsigPropagated] <nil>
}
