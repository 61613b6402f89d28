package ccnode

import (
	"bufio"
	"context"
	"io"
	"net"
	"time"
)

// A connection carries frames to a node and from it.
type connection struct {
	stream net.Conn
	input  *bufio.Reader
}

func dial(ctx context.Context, address string) (*connection, error) {
	var dialer net.Dialer
	stream, err := dialer.DialContext(ctx, "tcp", address)
	if err != nil {
		return nil, err
	}
	return &connection{stream, bufio.NewReader(stream)}, nil
}

func (c *connection) close() { c.stream.Close() }

// Runs steps of which each ends once the context is done.
func (c *connection) within(ctx context.Context, steps func() error) error {
	// A time that is long over was set by an earlier context.
	if err := c.stream.SetDeadline(time.Time{}); err != nil {
		return err
	}
	over, watched := make(chan struct{}), make(chan struct{})
	go func() {
		defer close(watched)
		select {
		case <-ctx.Done():
			c.stream.SetDeadline(time.Unix(1, 0))
		case <-over:
		}
	}()
	err := steps()
	close(over)
	<-watched
	return err
}

func (c *connection) send(frame []byte) error {
	_, err := c.stream.Write(frame)
	return err
}

// The next frame: a MalformedError where the bytes spell none that a client is sent.
func (c *connection) receive() (told, error) {
	var prefix [4]byte
	if _, err := io.ReadFull(c.input, prefix[:]); err != nil {
		return told{}, err
	}
	length, err := decodeLength(prefix[:])
	if err != nil {
		return told{}, err
	}
	body := make([]byte, length)
	if _, err := io.ReadFull(c.input, body); err != nil {
		return told{}, err
	}
	return decodeBody(body)
}
