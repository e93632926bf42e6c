// Package keyset steers the keys that sign a DNSSEC zone, by a proved key set.
//
// Answer runs a whole script. A Session keeps a zone between two calls: a line goes in, and its
// answer comes out. The key set signs nothing, sends nothing and reads no clock: moments are handed
// in, as seconds since 1970. The lines that Accept takes are the script: keep them, and only them.
//
//	zone, err := keyset.Open("zone example.com")
//	if err != nil {
//		return err
//	}
//	defer zone.Close()
//	actions, err := zone.Accept("add-ksk K1 - 13 2 0 yes")
//
// Goroutines may use one Session side by side.
package keyset

/*
#cgo CFLAGS: -I${SRCDIR}/include
#cgo linux,amd64 LDFLAGS: ${SRCDIR}/lib/x86_64-unknown-linux-gnu/libkeyset.a
#cgo linux,arm64 LDFLAGS: ${SRCDIR}/lib/aarch64-unknown-linux-gnu/libkeyset.a
#include <keyset.h>
*/
import "C"

import (
	"errors"
	"fmt"
	"runtime"
	"strings"
	"sync"
	"unsafe"
)

// Release is the release of the library that is linked.
func Release() string {
	text, _ := fill(func(out *C.uint8_t, room C.size_t) C.struct_keyset_answered {
		return C.keyset_version_text(out, room)
	})
	return string(text)
}

var (
	// ErrOutOfMemory says that the library got no memory. Nothing has changed.
	ErrOutOfMemory = errors.New("out of memory")
	// ErrClosed says that the session is closed.
	ErrClosed = errors.New("the session is closed")
	// ErrNoNotes says that Due was asked of a session without notes.
	ErrNoNotes = errors.New("the session has no notes")
)

// MalformedError says that a line doesn't have the form of a script's line, or of a note.
type MalformedError struct {
	// Line is the number of the line in a script, from 1. It is 0 for a line that was handed in
	// alone.
	Line int
}

func (e *MalformedError) Error() string {
	if e.Line == 0 {
		return "malformed"
	}
	return fmt.Sprintf("line %d: malformed", e.Line)
}

// RefusedError says that the key set refuses a call, or that a note can't follow those before it.
// Nothing has changed.
type RefusedError struct {
	// Cause is the reason, in the words of the answers.
	Cause string
}

func (e *RefusedError) Error() string {
	return "refused: " + e.Cause
}

// bytes are a text as C reads it. They stay where they are while C runs.
func bytes(text []byte) (*C.uint8_t, C.size_t) {
	if len(text) == 0 {
		return nil, 0
	}
	return (*C.uint8_t)(unsafe.Pointer(&text[0])), C.size_t(len(text))
}

// fill asks for an answer, with as much room as it needs.
func fill(ask func(*C.uint8_t, C.size_t) C.struct_keyset_answered) ([]byte, error) {
	room := make([]byte, 4096)
	for {
		out, length := bytes(room)
		answered := ask(out, length)
		switch answered.status {
		case C.KEYSET_ANSWERED:
			return room[:answered.length], nil
		case C.KEYSET_SHORT:
			room = make([]byte, answered.length)
		default:
			return nil, fault(answered.status, int(answered.line))
		}
	}
}

func fault(status C.uint32_t, line int) error {
	switch status {
	case C.KEYSET_ANSWERED:
		return nil
	case C.KEYSET_MALFORMED:
		return &MalformedError{line}
	case C.KEYSET_OUT_OF_MEMORY:
		return ErrOutOfMemory
	case C.KEYSET_CLOSED:
		return ErrClosed
	default:
		return &RefusedError{statusText(status)}
	}
}

func statusText(status C.uint32_t) string {
	room := make([]byte, C.KEYSET_TEXT_ROOM)
	out, length := bytes(room)
	return string(room[:C.keyset_status_text(status, out, length).length])
}

// Answer runs a script, and gives its answers as the program keyset writes them. The error is a
// *MalformedError with the number of the line, or ErrOutOfMemory.
func Answer(script []byte) ([]byte, error) {
	text, length := bytes(script)
	return fill(func(out *C.uint8_t, room C.size_t) C.struct_keyset_answered {
		return C.keyset_answer(text, length, out, room)
	})
}

// Session is a zone whose calls come one at a time. Close frees what it keeps.
type Session struct {
	alone  sync.RWMutex
	handle C.struct_keyset_session
}

// Open makes a new key set for the zone that a script's first line names, as "zone example.com".
// The error is a *MalformedError or ErrOutOfMemory.
func Open(line string) (*Session, error) {
	session := new(Session)
	text, length := bytes([]byte(line))
	if err := fault(C.keyset_open(text, length, &session.handle), 0); err != nil {
		return nil, err
	}
	runtime.SetFinalizer(session, (*Session).Close)
	return session, nil
}

// Accept makes the call of a line if the key set accepts it, and gives the actions that are due
// now. The error is a *MalformedError, a *RefusedError with the cause, ErrOutOfMemory or ErrClosed.
// Then the session is as it was.
func (s *Session) Accept(line string) ([]string, error) {
	s.alone.Lock()
	defer s.alone.Unlock()
	text, length := bytes([]byte(line))
	status := C.keyset_accept(&s.handle, text, length)
	if status != C.KEYSET_ANSWERED && status != C.KEYSET_REFUSED {
		return nil, fault(status, 0)
	}
	answer, err := s.lastAnswer()
	if err != nil {
		return nil, err
	}
	if status == C.KEYSET_REFUSED {
		return nil, &RefusedError{strings.TrimPrefix(answer, "refused: ")}
	}
	return strings.Fields(answer)[1:], nil
}

func (s *Session) lastAnswer() (string, error) {
	text, err := fill(func(out *C.uint8_t, room C.size_t) C.struct_keyset_answered {
		return C.keyset_told(&s.handle, out, room)
	})
	return strings.TrimSuffix(string(text), "\n"), err
}

// Calls is the number of the last call: how many the session has made.
func (s *Session) Calls() int {
	s.alone.RLock()
	defer s.alone.RUnlock()
	return int(C.keyset_calls(&s.handle))
}

// Closing gives the last two lines of the answers to all lines so far: the sets that are published
// now, and the verdict.
func (s *Session) Closing() (string, error) {
	s.alone.RLock()
	defer s.alone.RUnlock()
	text, err := fill(func(out *C.uint8_t, room C.size_t) C.struct_keyset_answered {
		return C.keyset_closing(&s.handle, out, room)
	})
	return string(text), err
}

// Status gives the status of the zone as one line of JSON.
func (s *Session) Status() ([]byte, error) {
	s.alone.RLock()
	defer s.alone.RUnlock()
	return fill(func(out *C.uint8_t, room C.size_t) C.struct_keyset_answered {
		return C.keyset_status(&s.handle, out, room)
	})
}

// Note takes the next line of the zone's notes: what is published, with which TTL in seconds, and
// when all servers gave it. The error is a *MalformedError, a *RefusedError if the line can't
// follow those before it, ErrOutOfMemory or ErrClosed. Then the notes are as they were.
func (s *Session) Note(line string) error {
	s.alone.Lock()
	defer s.alone.Unlock()
	text, length := bytes([]byte(line))
	return fault(C.keyset_note(&s.handle, text, length), 0)
}

// ForgoNotes gives up the notes of the session, and what it keeps for them: 16 bytes for each call.
// From then on it is as small after many calls as after few. The error is ErrClosed.
func (s *Session) ForgoNotes() error {
	s.alone.Lock()
	defer s.alone.Unlock()
	return fault(C.keyset_forgo_notes(&s.handle), 0)
}

// Due gives the reports that the rolls wait for, as they would be made at this second since 1970.
// The error is ErrNoNotes if no note was taken yet.
func (s *Session) Due(seconds uint64) (string, error) {
	s.alone.RLock()
	defer s.alone.RUnlock()
	text, err := fill(func(out *C.uint8_t, room C.size_t) C.struct_keyset_answered {
		return C.keyset_due(&s.handle, C.uint64_t(seconds), out, room)
	})
	var malformed *MalformedError
	if errors.As(err, &malformed) {
		return "", ErrNoNotes
	}
	return string(text), err
}

// Copy gives another session after the same calls and notes, to try a call on it.
func (s *Session) Copy() (*Session, error) {
	s.alone.RLock()
	defer s.alone.RUnlock()
	other := new(Session)
	if err := fault(C.keyset_copy(&s.handle, &other.handle), 0); err != nil {
		return nil, err
	}
	runtime.SetFinalizer(other, (*Session).Close)
	return other, nil
}

// Close frees what the session keeps. A closed one stays closed.
func (s *Session) Close() {
	s.alone.Lock()
	defer s.alone.Unlock()
	C.keyset_close(&s.handle)
	runtime.SetFinalizer(s, nil)
}
