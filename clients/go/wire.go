package ccnode

import (
	"encoding/binary"
	"fmt"
)

const (
	maxBody   = 65_536
	maxText   = 64
	maxRows   = 256
	maxRowSet = 32
	maxSet    = 8_192
	// No node takes a request beyond it.
	maxRequest = 1 << 62

	askKind     = 3
	replyKind   = 4
	refusedKind = 5
)

type answerKind uint8

const (
	storedAnswer answerKind = iota + 1
	seenAnswer
	maxAnswer
	flagAnswer
	setAnswer
)

// Row is what a node has stored.
type Row struct {
	Node uint32
	// Number is the number of the node's last write.
	Number uint64
	Text   []byte
	Max    uint64
	Flag   bool
	// Set ascends.
	Set []uint32
}

// An answer has the field of its kind alone.
type answer struct {
	kind    answerKind
	rows    []Row
	max     uint64
	flag    bool
	numbers []uint32
}

// The bytes of a command, and the kind of answer that it gets.
type command struct {
	encoded []byte
	answer  answerKind
}

// Whether it changes nothing.
func (c command) isReading() bool { return c.answer != storedAnswer }

var (
	collectCommand  = command{[]byte{2}, seenAnswer}
	readMaxCommand  = command{[]byte{4}, maxAnswer}
	setFlagCommand  = command{[]byte{5}, storedAnswer}
	readFlagCommand = command{[]byte{6}, flagAnswer}
	readSetCommand  = command{[]byte{8}, setAnswer}
)

func storeCommand(text []byte) (command, error) {
	if len(text) > maxText {
		return command{}, fmt.Errorf("%w: a text has %d bytes at most, not %d", ErrInvalidArgument, maxText, len(text))
	}
	return command{append([]byte{1, byte(len(text))}, text...), storedAnswer}, nil
}

func maxCommand(number uint64) command {
	return command{binary.BigEndian.AppendUint64([]byte{3}, number), storedAnswer}
}

func addCommand(number uint32) command {
	return command{binary.BigEndian.AppendUint32([]byte{7}, number), storedAnswer}
}

// The frame of an ask.
func encodeAsk(session, request uint64, asked command) []byte {
	frame := binary.BigEndian.AppendUint32(nil, uint32(17+len(asked.encoded)))
	frame = append(frame, askKind)
	frame = binary.BigEndian.AppendUint64(frame, session)
	frame = binary.BigEndian.AppendUint64(frame, request)
	return append(frame, asked.encoded...)
}

// What a node tells a client of a request: an answer, or a refusal and what it carries.
type told struct {
	session, request uint64
	answer           answer
	refusal          Refusal
	carried          uint64
}

func (t told) isRefused() bool { return t.refusal != 0 }

func (t told) refused() *RefusedError { return &RefusedError{t.refusal, t.carried} }

func (t told) notNext() error {
	return fmt.Errorf("%w: request %d isn't next: the last one is %d", ErrSessionInUse, t.request, t.carried)
}

// The session's last request, by a refusal that tells it.
func (t told) last() (uint64, error) {
	switch {
	case t.refusal == Skip:
		return 0, t.notNext()
	case t.refusal != Stale:
		return 0, t.refused()
	case t.carried > maxRequest:
		return 0, &MalformedError{TooLarge}
	}
	return t.carried, nil
}

// The length of a frame's body, by the frame's first four bytes.
func decodeLength(prefix []byte) (int, error) {
	length := binary.BigEndian.Uint32(prefix)
	if length == 0 {
		return 0, &MalformedError{Short}
	}
	if length > maxBody {
		return 0, &MalformedError{TooLarge}
	}
	return int(length), nil
}

// What a node tells a client by the body of a frame: a MalformedError for any other bytes.
func decodeBody(body []byte) (told, error) {
	r := reader{rest: body}
	kind := r.u8()
	if kind != replyKind && kind != refusedKind {
		r.fail(BadKind)
	}
	t := told{session: r.u64(), request: r.u64()}
	if kind == replyKind {
		t.answer = r.answer()
	} else {
		t.refusal = r.refusal()
		t.carried = r.u64()
	}
	if len(r.rest) > 0 {
		r.fail(Trailing)
	}
	if r.err != nil {
		return told{}, r.err
	}
	return t, nil
}

// A reader takes fields from the front of bytes. It keeps its first fault, and gives zeros from then on.
type reader struct {
	rest []byte
	err  error
}

func (r *reader) fail(fault Fault) {
	if r.err == nil {
		r.err = &MalformedError{fault}
	}
}

var zeros [8]byte

func (r *reader) take(count int) []byte {
	if r.err == nil && count > len(r.rest) {
		r.fail(Short)
	}
	if r.err != nil {
		return zeros[:min(count, len(zeros))]
	}
	taken := r.rest[:count]
	r.rest = r.rest[count:]
	return taken
}

func min(a, b int) int {
	if a < b {
		return a
	}
	return b
}

func (r *reader) u8() uint8   { return r.take(1)[0] }
func (r *reader) u16() uint16 { return binary.BigEndian.Uint16(r.take(2)) }
func (r *reader) u32() uint32 { return binary.BigEndian.Uint32(r.take(4)) }
func (r *reader) u64() uint64 { return binary.BigEndian.Uint64(r.take(8)) }

func (r *reader) atMost(count, most int) int {
	if count > most {
		r.fail(TooLarge)
	}
	if r.err != nil {
		return 0
	}
	return count
}

func (r *reader) flag() bool {
	flag := r.u8()
	if flag > 1 {
		r.fail(BadKind)
	}
	return flag == 1
}

func (r *reader) ascending(count int) []uint32 {
	var numbers []uint32
	for i := 0; i < count && r.err == nil; i++ {
		number := r.u32()
		if i > 0 && number <= numbers[i-1] {
			r.fail(NotAscending)
		}
		numbers = append(numbers, number)
	}
	return numbers
}

func (r *reader) refusal() Refusal {
	refusal := Refusal(r.u8())
	if refusal < Left || refusal > QueueFull {
		r.fail(BadKind)
	}
	return refusal
}

func (r *reader) answer() answer {
	a := answer{kind: answerKind(r.u8())}
	switch a.kind {
	case storedAnswer:
	case seenAnswer:
		a.rows = r.rows()
	case maxAnswer:
		a.max = r.u64()
	case flagAnswer:
		a.flag = r.flag()
	case setAnswer:
		a.numbers = r.ascending(r.atMost(int(r.u16()), maxSet))
	default:
		r.fail(BadKind)
	}
	return a
}

func (r *reader) rows() []Row {
	var rows []Row
	// 0 stands before the first node.
	before := uint32(0)
	for left := r.atMost(int(r.u16()), maxRows); left > 0 && r.err == nil; left-- {
		node := r.u32()
		if node <= before {
			r.fail(NotAscending)
		}
		rows = append(rows, r.row(node))
		before = node
	}
	return rows
}

func (r *reader) row(node uint32) Row {
	return Row{
		Node:   node,
		Number: r.u64(),
		// A copy: the frame's own memory is let go.
		Text: append([]byte{}, r.take(r.atMost(int(r.u8()), maxText))...),
		Max:  r.u64(),
		Flag: r.flag(),
		Set:  r.ascending(r.atMost(int(r.u8()), maxRowSet)),
	}
}
