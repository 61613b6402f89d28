package ccnode

import (
	"bytes"
	"context"
	"errors"
	"fmt"
	"net"
	"reflect"
	"strings"
	"sync"
	"testing"
	"time"
)

const (
	readFlag = "06"
	collect  = "02"
	storeA   = "010161"
	storeB   = "010162"
	addNine  = "0700000009"
)

// What a client asks first where the session's last request is 4.
var learning = []heard{{0, readFlag}, {5, readFlag}}

var silence = []byte{}

// Views that differ.
var views = []string{
	"020001" + rowBytes(1, 1, "a"),
	"020002" + rowBytes(1, 1, "a") + rowBytes(2, 1, "b"),
	"020002" + rowBytes(1, 2, "c") + rowBytes(2, 1, "b"),
}

// A reply with each view to requests from the first one on.
func replies(first uint64, views ...string) [][]byte {
	var steps [][]byte
	for place, view := range views {
		steps = append(steps, reply(first+uint64(place), view))
	}
	return steps
}

// What a node hears by collects under these numbers.
func collectsOf(numbers ...uint64) []heard {
	var asks []heard
	for _, number := range numbers {
		asks = append(asks, heard{number, collect})
	}
	return asks
}

// A node of whose session the last request is 4, and what it says from request 6 on.
func newNode(t *testing.T, steps ...[]byte) *scriptedNode {
	t.Helper()
	return newScriptedNode(t, append(learned(4), steps...)...)
}

func newClient(t *testing.T, node *scriptedNode) *Client {
	t.Helper()
	client, err := Connect(context.Background(), []string{node.address()}, testSession)
	if err != nil {
		t.Fatal(err)
	}
	t.Cleanup(func() { client.Close() })
	return client
}

func within(t *testing.T, timeout time.Duration) context.Context {
	t.Helper()
	ctx, cancel := context.WithTimeout(context.Background(), timeout)
	t.Cleanup(cancel)
	return ctx
}

func store(t *testing.T, client *Client, text string) {
	t.Helper()
	if err := client.Store(context.Background(), []byte(text)); err != nil {
		t.Fatal(err)
	}
}

func (n *scriptedNode) wants(asks ...heard) {
	n.t.Helper()
	if got := n.heard(); !reflect.DeepEqual(got, append(append([]heard{}, learning...), asks...)) {
		n.t.Errorf("the node was asked %v, not %v and %v", got, learning, asks)
	}
}

func wantLate(t *testing.T, err error, isPending bool) {
	t.Helper()
	var late *DeadlineExceededError
	if !errors.As(err, &late) || late.IsPending != isPending || !errors.Is(err, context.DeadlineExceeded) {
		t.Errorf("%v, not a deadline that has passed with IsPending %v", err, isPending)
	}
}

func TestRequestsAreNumberedFromTheLastOne(t *testing.T) {
	node := newNode(t, reply(6, stored), reply(7, seenNothing))
	client := newClient(t, node)
	store(t, client, "a")
	if rows, err := client.Collect(context.Background()); err != nil || len(rows) != 0 {
		t.Errorf("%v and %v", rows, err)
	}
	node.wants(heard{6, storeA}, heard{7, collect})
}

func TestARequestOfAnEarlierClientTakesNoWriteWithIt(t *testing.T) {
	steps := [][]byte{refusing(0, Stale, 4), reply(5, stored), refusing(0, Stale, 5), reply(6, flagOff), reply(7, stored)}
	node := newScriptedNode(t, steps...)
	store(t, newClient(t, node), "b")
	node.wants(heard{0, readFlag}, heard{6, readFlag}, heard{7, storeB})
}

func TestANumberThatAnotherCommandHasTakenIsLeftToIt(t *testing.T) {
	steps := [][]byte{refusing(0, Stale, 4), refusing(5, Stale, 5), refusing(6, Stale, 8), reply(9, flagOff), reply(10, stored)}
	node := newScriptedNode(t, steps...)
	store(t, newClient(t, node), "b")
	node.wants(heard{6, readFlag}, heard{9, readFlag}, heard{10, storeB})
}

func TestANumberBeyondTheNextOneIsOfAnotherSession(t *testing.T) {
	node := newScriptedNode(t, refusing(0, Stale, 4), refusing(5, Skip, 2))
	if _, err := Connect(context.Background(), []string{node.address()}, testSession); !errors.Is(err, ErrSessionInUse) {
		t.Errorf("%v, not ErrSessionInUse", err)
	}
}

func TestABrokenConnectionLeavesTheNumber(t *testing.T) {
	node := newNode(t, nil, reply(6, stored))
	store(t, newClient(t, node), "a")
	node.wants(heard{6, storeA}, heard{6, storeA})
}

func TestWhatPassesIsAskedAgain(t *testing.T) {
	var steps [][]byte
	var asks []heard
	for _, refusal := range []Refusal{NotEntered, NotJoined, Busy, OutboxFull, NoMemory, QueueFull} {
		steps = append(steps, refusing(6, refusal, 0))
		asks = append(asks, heard{6, storeA})
	}
	node := newNode(t, append(steps, reply(6, stored))...)
	store(t, newClient(t, node), "a")
	node.wants(append(asks, heard{6, storeA})...)
}

func TestWhatPassesUntilTheDeadlineIsItsCause(t *testing.T) {
	var steps [][]byte
	for len(steps) < 100 {
		steps = append(steps, refusing(6, NotJoined, 0))
	}
	err := newClient(t, newNode(t, steps...)).Store(within(t, 100*time.Millisecond), []byte("a"))
	wantLate(t, err, true)
	var refused *RefusedError
	if !errors.As(err, &refused) || refused.Refusal != NotJoined {
		t.Errorf("%v, not NotJoined", err)
	}
}

func TestALateRequestIsSettledBeforeTheNextOne(t *testing.T) {
	node := newNode(t, silence, silence, reply(6, stored), reply(7, stored))
	client := newClient(t, node)
	wantLate(t, client.Store(within(t, 50*time.Millisecond), []byte("a")), true)
	wantLate(t, client.Store(within(t, 50*time.Millisecond), []byte("b")), false)
	store(t, client, "b")
	node.wants(heard{6, storeA}, heard{6, storeA}, heard{6, storeA}, heard{7, storeB})
}

func TestALateRequestThatIsRefusedLeavesItsNumber(t *testing.T) {
	node := newNode(t, silence, refusing(6, SetFull, 0), reply(6, stored))
	client := newClient(t, node)
	wantLate(t, client.Add(within(t, 50*time.Millisecond), 9), true)
	store(t, client, "b")
	node.wants(heard{6, addNine}, heard{6, addNine}, heard{6, storeB})
}

func TestALateReadingWhoseNumberAnotherCommandHasTakenIsForgotten(t *testing.T) {
	for _, says := range [][]byte{refusing(6, Stale, 6), reply(6, stored)} {
		node := newNode(t, append(append([][]byte{silence, says}, learned(6)...), reply(8, stored))...)
		client := newClient(t, node)
		_, err := client.Collect(within(t, 50*time.Millisecond))
		wantLate(t, err, true)
		store(t, client, "b")
		node.wants(heard{6, collect}, heard{6, collect}, heard{0, readFlag}, heard{7, readFlag}, heard{8, storeB})
	}
}

func TestALateWriteWhoseNumberAnotherCommandHasTakenIsTold(t *testing.T) {
	for _, says := range [][]byte{refusing(6, Stale, 6), reply(6, flagOff)} {
		node := newNode(t, append(append([][]byte{silence, says}, learned(6)...), reply(8, stored))...)
		client := newClient(t, node)
		wantLate(t, client.Store(within(t, 50*time.Millisecond), []byte("a")), true)
		if err := client.Store(context.Background(), []byte("b")); !errors.Is(err, ErrSessionInUse) {
			t.Errorf("%v, not ErrSessionInUse", err)
		}
		store(t, client, "b")
		node.wants(heard{6, storeA}, heard{6, storeA}, heard{0, readFlag}, heard{7, readFlag}, heard{8, storeB})
	}
}

func TestARequestThatWasNeverSentIsNotPending(t *testing.T) {
	node := newNode(t, refusing(6, SetFull, 0))
	client := newClient(t, node)
	node.listener.Close()
	client.disconnect()
	wantLate(t, client.Store(within(t, 50*time.Millisecond), []byte("a")), false)
}

func TestACancelledContext(t *testing.T) {
	client := newClient(t, newNode(t))
	ctx, cancel := context.WithCancel(context.Background())
	cancel()
	if err := client.Flag(ctx); !errors.Is(err, context.Canceled) {
		t.Errorf("%v, not context.Canceled", err)
	}
}

func TestRefusedForGood(t *testing.T) {
	node := newNode(t, refusing(6, SetFull, 0), reply(6, stored))
	client := newClient(t, node)
	var refused *RefusedError
	if err := client.Add(context.Background(), 9); !errors.As(err, &refused) || refused.Refusal != SetFull {
		t.Errorf("%v, not SetFull", err)
	}
	store(t, client, "b")
	node.wants(heard{6, addNine}, heard{6, storeB})
}

func TestAnotherClientInTheSession(t *testing.T) {
	for _, says := range [][]byte{refusing(6, Stale, 9), refusing(6, Skip, 2), reply(6, seenNothing)} {
		node := newNode(t, append(append([][]byte{says}, learned(9)...), reply(11, stored))...)
		client := newClient(t, node)
		if err := client.Store(context.Background(), []byte("a")); !errors.Is(err, ErrSessionInUse) {
			t.Errorf("%v, not ErrSessionInUse", err)
		}
		store(t, client, "b")
		node.wants(heard{6, storeA}, heard{0, readFlag}, heard{10, readFlag}, heard{11, storeB})
	}
}

func TestWhatIsToldOfOthersIsPassedOver(t *testing.T) {
	others := joined(reply(5, stored), replyOf(8, 6, stored), refusing(7, Busy, 0), refusing(6, Repeat, 0))
	node := newNode(t, joined(others, reply(6, "03000000000000002a")))
	if max, err := newClient(t, node).ReadMax(context.Background()); err != nil || max != 42 {
		t.Errorf("%d and %v, not 42", max, err)
	}
}

func TestMalformedFramesEndTheConnection(t *testing.T) {
	node := newNode(t, unhex("00010001ff"), reply(6, stored), reply(7, stored))
	client := newClient(t, node)
	var malformed *MalformedError
	if err := client.Store(context.Background(), []byte("a")); !errors.As(err, &malformed) || malformed.Fault != TooLarge {
		t.Errorf("%v, not TooLarge", err)
	}
	store(t, client, "b")
	node.wants(heard{6, storeA}, heard{6, storeA}, heard{7, storeB})
}

func TestALastRequestThatNoNodeHas(t *testing.T) {
	node := newScriptedNode(t, refusing(0, Stale, 1<<63))
	var malformed *MalformedError
	if _, err := Connect(context.Background(), []string{node.address()}, testSession); !errors.As(err, &malformed) {
		t.Errorf("%v, not a MalformedError", err)
	}
}

func TestAddressesAreTriedInTurn(t *testing.T) {
	gone, err := net.Listen("tcp", "127.0.0.1:0")
	if err != nil {
		t.Fatal(err)
	}
	gone.Close()
	node := newNode(t, reply(6, stored))
	client, err := Connect(context.Background(), []string{gone.Addr().String(), node.address()}, testSession)
	if err != nil {
		t.Fatal(err)
	}
	defer client.Close()
	store(t, client, "a")
	node.wants(heard{6, storeA})
}

func TestArgumentsAreLookedAtBeforeAnythingIsSent(t *testing.T) {
	node := newNode(t)
	client := newClient(t, node)
	if err := client.Store(context.Background(), make([]byte, 65)); !errors.Is(err, ErrInvalidArgument) {
		t.Errorf("%v, not ErrInvalidArgument", err)
	}
	for _, addresses := range [][]string{nil, {"7001"}, {":7001"}, {"127.0.0.1:0"}, {"127.0.0.1:65536"}, {"127.0.0.1:http"}} {
		if _, err := Connect(context.Background(), addresses, testSession); !errors.Is(err, ErrInvalidArgument) {
			t.Errorf("%v, not ErrInvalidArgument", err)
		}
	}
	node.wants()
}

func TestAClosedClient(t *testing.T) {
	client := newClient(t, newNode(t, silence))
	ended := make(chan error)
	go func() {
		_, err := client.Collect(context.Background())
		ended <- err
	}()
	time.Sleep(50 * time.Millisecond)
	client.Close()
	if err := <-ended; !errors.Is(err, ErrClientClosed) {
		t.Errorf("%v, not ErrClientClosed", err)
	}
	if err := client.Flag(context.Background()); !errors.Is(err, ErrClientClosed) {
		t.Errorf("%v, not ErrClientClosed", err)
	}
}

func TestGoroutinesTakeTurns(t *testing.T) {
	var steps [][]byte
	var asks []heard
	for number := uint64(6); number < 16; number++ {
		steps = append(steps, reply(number, stored))
		asks = append(asks, heard{number, storeA})
	}
	node := newNode(t, steps...)
	client := newClient(t, node)
	var group sync.WaitGroup
	for range asks {
		group.Add(1)
		go func() {
			defer group.Done()
			if err := client.Store(context.Background(), []byte("a")); err != nil {
				t.Error(err)
			}
		}()
	}
	group.Wait()
	node.wants(asks...)
}

func TestAWatchTellsWhatChanged(t *testing.T) {
	node := newNode(t, append(replies(6, views...), silence)...)
	watch := newClient(t, node).Watch(time.Millisecond)
	ctx := within(t, 200*time.Millisecond)
	for _, want := range []struct {
		node     uint32
		old, new string
	}{{1, "", "a"}, {2, "", "b"}, {1, "a", "c"}} {
		change, err := watch.Next(ctx)
		if err != nil {
			t.Fatal(err)
		}
		hasOld := change.Old != nil && bytes.Equal(change.Old.Text, []byte(want.old)) || change.Old == nil && want.old == ""
		if change.Node != want.node || !hasOld || string(change.New.Text) != want.new {
			t.Errorf("%v, not %v", change, want)
		}
	}
	_, err := watch.Next(ctx)
	wantLate(t, err, true)
}

func TestASnapshotIsWhatTwoCollectsInARowShow(t *testing.T) {
	for view, count := range map[string]int{seenNothing: 0, views[0]: 1} {
		node := newNode(t, append(replies(6, view, view), reply(8, stored))...)
		client := newClient(t, node)
		taken, err := client.Snapshot(context.Background())
		if err != nil || taken.Collects != 2 || len(taken.Rows) != count {
			t.Errorf("%v and %v, not %d rows by 2 collects", taken, err, count)
		}
		store(t, client, "a")
		node.wants(append(collectsOf(6, 7), heard{8, storeA})...)
	}
}

func TestASnapshotCollectsUntilTwoInARowAgree(t *testing.T) {
	rows := []Row{{Node: 1, Number: 2, Text: []byte("c")}, {Node: 2, Number: 1, Text: []byte("b")}}
	for _, first := range views[:2] {
		node := newNode(t, replies(6, first, views[2], views[2])...)
		taken, err := newClient(t, node).Snapshot(context.Background())
		if err != nil || !reflect.DeepEqual(taken, Snapshot{Rows: rows, Collects: 3}) {
			t.Errorf("%v and %v, not %v by 3 collects", taken, err, rows)
		}
		node.wants(collectsOf(6, 7, 8)...)
	}
}

func TestNoTwoCollectsInARowAgree(t *testing.T) {
	for _, numbers := range [][]uint64{{6, 7}, {6, 7, 8}} {
		answered := len(numbers)
		late := 6 + uint64(answered)
		steps := append(replies(6, views[:answered]...), silence, reply(late, views[2]), reply(late+1, stored))
		node := newNode(t, steps...)
		client := newClient(t, node)
		_, err := client.Snapshot(within(t, 300*time.Millisecond))
		wantLate(t, err, true)
		want := fmt.Sprintf("ccnode: no two in a row of %d collects agree, since others write", answered)
		if err == nil || err.Error() != want {
			t.Errorf("%v, not %s", err, want)
		}
		store(t, client, "a")
		node.wants(append(collectsOf(append(numbers, late, late)...), heard{late + 1, storeA})...)
	}
}

func TestTooFewCollectsToCompare(t *testing.T) {
	for answered := 0; answered < 2; answered++ {
		node := newNode(t, append(replies(6, views[:answered]...), silence)...)
		_, err := newClient(t, node).Snapshot(within(t, 200*time.Millisecond))
		wantLate(t, err, true)
		if err == nil || !strings.HasPrefix(err.Error(), "ccnode: no answer in time") {
			t.Errorf("%v tells of collects that disagree", err)
		}
	}
}

func TestAllCollectsOfASnapshotHaveOneDeadline(t *testing.T) {
	var differing []string
	for number := uint64(0); number < 20_000; number++ {
		differing = append(differing, "020001"+rowBytes(1, number, "a"))
	}
	node := newNode(t, replies(6, differing...)...)
	_, err := newClient(t, node).Snapshot(within(t, 100*time.Millisecond))
	if err == nil || !strings.HasPrefix(err.Error(), "ccnode: no two in a row of ") {
		t.Errorf("%v, not a snapshot of which no two collects agree", err)
	}
	asks := node.heard()[len(learning):]
	if len(asks) >= len(differing) {
		t.Errorf("all %d collects were made", len(asks))
	}
	for place, ask := range asks {
		if want := (heard{6 + uint64(place), collect}); ask != want {
			t.Fatalf("the node was asked %v, not %v", ask, want)
		}
	}
}

func TestAConnectionThatBreaksBetweenTheCollectsOfASnapshot(t *testing.T) {
	node := newNode(t, reply(6, views[0]), nil, reply(7, views[0]))
	if taken, err := newClient(t, node).Snapshot(context.Background()); err != nil || taken.Collects != 2 {
		t.Errorf("%v and %v, not 2 collects", taken, err)
	}
	node.wants(collectsOf(6, 7, 7)...)
}
