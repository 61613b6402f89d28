// Package ccnode is a client of one node of a ccnode cluster: store, collect, a maximum, a flag and a set, each request done
// exactly once.
package ccnode

import (
	"context"
	"errors"
	"fmt"
	"net"
	"strconv"
	"time"
)

// DefaultTimeout is how long a call waits whose context has no deadline.
const DefaultTimeout = 10 * time.Second

const (
	// A request without an answer for so long is asked again over a new connection.
	attemptTimeout = 2 * time.Second
	// A client pauses so long before it asks again, twice as long each time up to the longest.
	firstPause   = 10 * time.Millisecond
	longestPause = 320 * time.Millisecond
)

// Client is a client of one node, which Connect makes. Goroutines may share it: their calls take turns.
//
// Each call waits until its context is done, or DefaultTimeout where that has no deadline, and fails with a
// *DeadlineExceededError then, with a *RefusedError where the node refuses for good, with ErrInvalidArgument before anything
// is sent, with ErrClientClosed, ErrSessionInUse or a *MalformedError.
type Client struct {
	addresses []string
	session   uint64
	// Holds a token while no call is under way.
	turn chan struct{}
	// Is done once the client is closed.
	life       context.Context
	end        context.CancelFunc
	connection *connection
	// Which address is tried next.
	place int
	// The number of the next request, 0 until that is known.
	next uint64
	// A request that was sent, and of which nobody knows yet what became.
	pending *request
}

type request struct {
	number uint64
	asked  command
}

// Connect is a client in a session of the node that listens at these addresses, "HOST:PORT" each; several lead to one node.
// It returns once no request of an earlier client of the session is under way any more.
func Connect(ctx context.Context, addresses []string, session uint64) (*Client, error) {
	if err := checkAll(addresses); err != nil {
		return nil, err
	}
	c := &Client{addresses: append([]string{}, addresses...), session: session, turn: make(chan struct{}, 1)}
	c.life, c.end = context.WithCancel(context.Background())
	c.turn <- struct{}{}
	err := c.inTurn(ctx, func(ctx context.Context) error {
		return c.learn(ctx)
	})
	if err != nil {
		c.Close()
		return nil, err
	}
	return c, nil
}

func checkAll(addresses []string) error {
	if len(addresses) == 0 {
		return fmt.Errorf("%w: an address is needed", ErrInvalidArgument)
	}
	for _, address := range addresses {
		host, port, err := net.SplitHostPort(address)
		if err != nil {
			return fmt.Errorf("%w: an address is HOST:PORT: %v", ErrInvalidArgument, err)
		}
		if number, err := strconv.ParseUint(port, 10, 16); err != nil || number == 0 || host == "" {
			return fmt.Errorf("%w: an address is HOST:PORT, not %q", ErrInvalidArgument, address)
		}
	}
	return nil
}

// Store stores a text of at most 64 bytes as this node's.
func (c *Client) Store(ctx context.Context, text []byte) error {
	asked, err := storeCommand(text)
	if err != nil {
		return err
	}
	_, err = c.call(ctx, asked)
	return err
}

// Collect is the last row of each node that ever wrote, by ascending node.
func (c *Client) Collect(ctx context.Context) ([]Row, error) {
	got, err := c.call(ctx, collectCommand)
	return got.rows, err
}

// Max raises this node's maximum to number; a smaller one leaves it as it is.
func (c *Client) Max(ctx context.Context, number uint64) error {
	_, err := c.call(ctx, maxCommand(number))
	return err
}

// ReadMax is the greatest maximum of all nodes, 0 where none was written.
func (c *Client) ReadMax(ctx context.Context) (uint64, error) {
	got, err := c.call(ctx, readMaxCommand)
	return got.max, err
}

// Flag sets this node's flag, for good.
func (c *Client) Flag(ctx context.Context) error {
	_, err := c.call(ctx, setFlagCommand)
	return err
}

// ReadFlag tells whether any node has set its flag.
func (c *Client) ReadFlag(ctx context.Context) (bool, error) {
	got, err := c.call(ctx, readFlagCommand)
	return got.flag, err
}

// Add adds a number to this node's set. It is refused with SetFull where that has 32 others.
func (c *Client) Add(ctx context.Context, number uint32) error {
	_, err := c.call(ctx, addCommand(number))
	return err
}

// ReadSet is the numbers that were added at any node, ascending.
func (c *Client) ReadSet(ctx context.Context) ([]uint32, error) {
	got, err := c.call(ctx, readSetCommand)
	return got.numbers, err
}

// Close ends the client. Calls that are under way fail with ErrClientClosed; they may still be done.
func (c *Client) Close() error {
	c.end()
	<-c.turn
	c.disconnect()
	c.turn <- struct{}{}
	return nil
}

func (c *Client) call(ctx context.Context, asked command) (answer, error) {
	var got answer
	err := c.inTurn(ctx, func(ctx context.Context) (err error) {
		got, err = c.request(ctx, asked)
		return err
	})
	return got, err
}

// Does the work once the calls before it have ended, in a context with a deadline that the client's end ends too.
func (c *Client) inTurn(ctx context.Context, work func(context.Context) error) error {
	ctx, cancel := withDeadline(ctx)
	defer cancel()
	go func() {
		select {
		case <-c.life.Done():
			cancel()
		case <-ctx.Done():
		}
	}()
	select {
	case <-c.turn:
	case <-ctx.Done():
		return c.late(ctx, nil)
	}
	defer func() { c.turn <- struct{}{} }()
	return c.clean(work(ctx))
}

// A context with the deadline of this one, or with one of DefaultTimeout.
func withDeadline(ctx context.Context) (context.Context, context.CancelFunc) {
	if _, hasDeadline := ctx.Deadline(); hasDeadline {
		return context.WithCancel(ctx)
	}
	return context.WithTimeout(ctx, DefaultTimeout)
}

// Why a call ends whose context is done.
func (c *Client) late(ctx context.Context, cause error) error {
	if c.life.Err() != nil {
		return ErrClientClosed
	}
	return &DeadlineExceededError{Cause: cause, done: ctx.Err()}
}

// What comes over a connection after a failure belongs to a call that has ended.
func (c *Client) clean(err error) error {
	if err != nil && !isRefused(err) {
		c.disconnect()
	}
	return err
}

// Whether a refusal stands, and isn't the cause of a deadline's passing.
func isRefused(err error) bool {
	_, is := err.(*RefusedError)
	return is
}

func (c *Client) request(ctx context.Context, asked command) (answer, error) {
	if err := c.prepare(ctx); err != nil {
		return answer{}, err
	}
	got, err := c.answered(ctx, request{c.next, asked})
	var late *DeadlineExceededError
	if errors.As(err, &late) {
		late.IsPending = c.pending != nil
	}
	return got, err
}

// Settles what is pending, and learns the next number where that isn't known.
func (c *Client) prepare(ctx context.Context) error {
	if err := c.settle(ctx); err != nil {
		return err
	}
	if c.next != 0 {
		return nil
	}
	return c.learn(ctx)
}

// Brings the request of an earlier call, of which nobody knows what became, to its end.
func (c *Client) settle(ctx context.Context) error {
	if c.pending == nil {
		return nil
	}
	pending := *c.pending
	_, err := c.answered(ctx, pending)
	// Nobody waits for what a reading would have told any more.
	if isRefused(err) || errors.Is(err, ErrSessionInUse) && pending.asked.isReading() {
		return nil
	}
	return err
}

// Learns the number of the next request, which no earlier client's request can take any more.
//
// A request that an earlier client gave up may still be on its way under the number after the last one. So that number goes
// to a reading, which does no harm: once it is answered, the other one has been done, or never will be.
func (c *Client) learn(ctx context.Context) error {
	last, err := c.lastRequest(ctx)
	for err == nil {
		var got told
		got, err = c.told(ctx, request{last + 1, readFlagCommand})
		switch {
		case err != nil:
		case got.isRefused():
			// The other one has taken the number, or a later one.
			last, err = got.last()
		case got.answer.kind == flagAnswer:
			c.next = last + 2
			return nil
		default:
			last, err = c.lastRequest(ctx)
		}
	}
	return err
}

func (c *Client) lastRequest(ctx context.Context) (uint64, error) {
	got, err := c.ask(ctx, request{0, readFlagCommand})
	switch {
	case err != nil:
		return 0, err
	case !got.isRefused():
		return 0, fmt.Errorf("%w: request 0, which no node takes, was answered", ErrSessionInUse)
	}
	return got.last()
}

// The answer to a request: one of the command's kind.
func (c *Client) answered(ctx context.Context, what request) (answer, error) {
	got, err := c.told(ctx, what)
	switch {
	case err != nil:
		return answer{}, err
	case got.refusal == Stale || got.refusal == Skip:
		return answer{}, got.notNext()
	case got.isRefused():
		c.next = what.number
		return answer{}, got.refused()
	case got.answer.kind != what.asked.answer:
		return answer{}, fmt.Errorf("%w: request %d got an answer to another command", ErrSessionInUse, what.number)
	}
	c.next = what.number + 1
	return got.answer, nil
}

// What becomes of a request, which is pending once it was sent until the node says so.
func (c *Client) told(ctx context.Context, what request) (told, error) {
	got, err := c.ask(ctx, what)
	if err == nil {
		c.pending, c.next = nil, 0
	}
	return got, err
}

// What the node says of a request: its answer, or a refusal that stands. Until then it is asked again.
func (c *Client) ask(ctx context.Context, what request) (told, error) {
	for pause := firstPause; ; pause *= 2 {
		got, err := c.attempt(ctx, what)
		var malformed *MalformedError
		switch {
		case err == nil && !got.refusal.isPassing():
			return got, nil
		case err == nil:
			err = got.refused()
		case errors.As(err, &malformed):
			return told{}, err
		default:
			c.disconnect()
		}
		if pause > longestPause {
			pause = longestPause
		}
		if ctx.Err() != nil || sleep(ctx, pause) != nil {
			return told{}, c.late(ctx, err)
		}
	}
}

// What the node says of a request to one sending of it.
func (c *Client) attempt(ctx context.Context, what request) (told, error) {
	ctx, cancel := context.WithTimeout(ctx, attemptTimeout)
	defer cancel()
	if err := c.connect(ctx); err != nil {
		return told{}, err
	}
	var got told
	err := c.connection.within(ctx, func() (err error) {
		got, err = c.exchange(what)
		return err
	})
	return got, err
}

// Sends a request and waits for what the node says of it. What it says of others is passed over.
func (c *Client) exchange(what request) (told, error) {
	if what.number != 0 {
		c.pending = &what
	}
	if err := c.connection.send(encodeAsk(c.session, what.number, what.asked)); err != nil {
		return told{}, err
	}
	for {
		got, err := c.connection.receive()
		if err != nil {
			return told{}, err
		}
		// A request that was taken before is refused as Repeat at most, and answered again.
		if got.session == c.session && got.request == what.number && got.refusal != Repeat {
			return got, nil
		}
	}
}

func (c *Client) connect(ctx context.Context) error {
	if c.connection != nil {
		return nil
	}
	address := c.addresses[c.place%len(c.addresses)]
	c.place++
	connection, err := dial(ctx, address)
	c.connection = connection
	return err
}

func (c *Client) disconnect() {
	if c.connection != nil {
		c.connection.close()
		c.connection = nil
	}
}
