package ccnode

import (
	"bytes"
	"encoding/binary"
	"encoding/hex"
	"fmt"
	"io"
	"net"
	"sync"
	"testing"
)

const testSession = 7

const (
	stored      = "01"
	flagOff     = "0400"
	seenNothing = "020000"
)

// An ask as a scripted node heard it.
type heard struct {
	number  uint64
	command string
}

// A scriptedNode has one step for each ask that comes, over whichever connection: bytes are sent, nil closes the connection,
// and no bytes leave the client waiting. After the last step each connection is closed.
type scriptedNode struct {
	t        *testing.T
	listener net.Listener
	mutex    sync.Mutex
	steps    [][]byte
	asks     []heard
}

func newScriptedNode(t *testing.T, steps ...[]byte) *scriptedNode {
	t.Helper()
	listener, err := net.Listen("tcp", "127.0.0.1:0")
	if err != nil {
		t.Fatal(err)
	}
	node := &scriptedNode{t: t, listener: listener, steps: steps}
	t.Cleanup(func() { listener.Close() })
	go node.accept()
	return node
}

func (n *scriptedNode) address() string { return n.listener.Addr().String() }

func (n *scriptedNode) heard() []heard {
	n.mutex.Lock()
	defer n.mutex.Unlock()
	return append([]heard{}, n.asks...)
}

func (n *scriptedNode) accept() {
	for {
		stream, err := n.listener.Accept()
		if err != nil {
			return
		}
		go n.serve(stream)
	}
}

func (n *scriptedNode) serve(stream net.Conn) {
	defer stream.Close()
	for {
		var prefix [4]byte
		if _, err := io.ReadFull(stream, prefix[:]); err != nil {
			return
		}
		body := make([]byte, binary.BigEndian.Uint32(prefix[:]))
		if _, err := io.ReadFull(stream, body); err != nil {
			return
		}
		step := n.step(body)
		if step == nil {
			return
		}
		stream.Write(step)
	}
}

func (n *scriptedNode) step(body []byte) []byte {
	n.mutex.Lock()
	defer n.mutex.Unlock()
	n.asks = append(n.asks, heard{binary.BigEndian.Uint64(body[9:17]), hex.EncodeToString(body[17:])})
	if len(n.steps) == 0 {
		return nil
	}
	step := n.steps[0]
	n.steps = n.steps[1:]
	return step
}

func unhex(text string) []byte {
	decoded, err := hex.DecodeString(text)
	if err != nil {
		panic(err)
	}
	return decoded
}

func framed(body string) []byte {
	return unhex(fmt.Sprintf("%08x", len(body)/2) + body)
}

func replyOf(session, request uint64, answer string) []byte {
	return framed(fmt.Sprintf("04%016x%016x%s", session, request, answer))
}

func reply(request uint64, answer string) []byte { return replyOf(testSession, request, answer) }

func refusing(request uint64, refusal Refusal, carried uint64) []byte {
	return framed(fmt.Sprintf("05%016x%016x%02x%016x", testSession, request, uint8(refusal), carried))
}

// The steps by which a client learns the session's last request, and settles the number after it.
func learned(last uint64) [][]byte {
	return [][]byte{refusing(0, Stale, last), reply(last+1, flagOff)}
}

// A row of a view.
func rowBytes(node uint32, number uint64, text string) string {
	return fmt.Sprintf("%08x%016x%02x%x%016x0000", node, number, len(text), text, 0)
}

func joined(frames ...[]byte) []byte { return bytes.Join(frames, nil) }
