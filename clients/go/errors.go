package ccnode

import (
	"errors"
	"fmt"
)

// Refusal is why a node refuses a request, by its number (docs/FORMATS.md, "Refusals").
type Refusal uint8

// The refusals of a node.
const (
	Left Refusal = iota + 1
	NotEntered
	AlreadyEntered
	NotJoined
	Old
	Gap
	NothingToAck
	TooManyNodes
	TooManySessions
	Repeat
	Stale
	Skip
	Busy
	SetFull
	OutboxFull
	Spent
	NoMemory
	QueueFull
)

var refusalNames = [...]string{
	"Left", "NotEntered", "AlreadyEntered", "NotJoined", "Old", "Gap", "NothingToAck", "TooManyNodes", "TooManySessions",
	"Repeat", "Stale", "Skip", "Busy", "SetFull", "OutboxFull", "Spent", "NoMemory", "QueueFull",
}

// String is the refusal's name.
func (r Refusal) String() string {
	if r < Left || r > QueueFull {
		return fmt.Sprintf("Refusal(%d)", uint8(r))
	}
	return refusalNames[r-1]
}

// The node asks for patience: it may take the same request later.
func (r Refusal) isPassing() bool {
	switch r {
	case NotEntered, NotJoined, Busy, OutboxFull, NoMemory, QueueFull:
		return true
	}
	return false
}

// Fault is what is wrong with bytes that spell no frame of a node (docs/FORMATS.md, "What a decoder refuses").
type Fault string

// The faults of bytes.
const (
	Short        Fault = "Short"
	TooLarge     Fault = "TooLarge"
	BadKind      Fault = "BadKind"
	NotAscending Fault = "NotAscending"
	Trailing     Fault = "Trailing"
)

var (
	// ErrInvalidArgument is of an argument outside its limits. Nothing was sent.
	ErrInvalidArgument = errors.New("ccnode: invalid argument")
	// ErrClientClosed is of a call of a client that was closed.
	ErrClientClosed = errors.New("ccnode: the client was closed")
	// ErrSessionInUse tells that another client asks in this session, or that the addresses lead to different nodes. What
	// was asked may have been done.
	ErrSessionInUse = errors.New("ccnode: another client uses the session")
)

// RefusedError tells that the node refused a request for good: it wasn't done, and won't be.
type RefusedError struct {
	Refusal Refusal
	// Carried is the number that the refusal carries, else 0.
	Carried uint64
}

func (e *RefusedError) Error() string {
	return fmt.Sprintf("ccnode: refused %d %v", uint8(e.Refusal), e.Refusal)
}

// MalformedError tells that the other end sent bytes that spell no frame of a node. What was asked may still be done, as
// after a deadline.
type MalformedError struct {
	Fault Fault
}

func (e *MalformedError) Error() string {
	return fmt.Sprintf("ccnode: malformed frame: %s", e.Fault)
}

// DeadlineExceededError tells that no answer came before the context was done, or that no two collects in a row of a
// snapshot agreed. errors.Is finds the context's error in it.
type DeadlineExceededError struct {
	// IsPending is true where what was asked may have been done, and the client's next call first asks it again until it
	// is. Else it was never sent.
	IsPending bool
	// Cause is why the last attempt failed, a *RefusedError where the node told one; nil where nothing was tried.
	Cause error

	done error
	// How many collects of a snapshot were answered of which no two in a row agree, else 0.
	collects int
}

func (e *DeadlineExceededError) Error() string {
	if e.collects > 0 {
		return fmt.Sprintf("ccnode: no two in a row of %d collects agree, since others write", e.collects)
	}
	return fmt.Sprintf("ccnode: no answer in time: %v", e.Cause)
}

// Unwrap is the cause.
func (e *DeadlineExceededError) Unwrap() error { return e.Cause }

// Is tells whether the target is the error of the context that was done.
func (e *DeadlineExceededError) Is(target error) bool { return target == e.done }
