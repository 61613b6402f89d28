package ccnode

import (
	"context"
	"time"
)

// Change tells that a node's row appeared, where Old is nil, or changed. Rows never go away.
type Change struct {
	Node uint32
	Old  *Row
	New  Row
}

// Watch is the changes of a cluster's rows; the first collect makes each row appear. It is for one goroutine.
type Watch struct {
	client   *Client
	interval time.Duration
	due      time.Time
	rows     map[uint32]Row
	changes  []Change
}

// Watch collects each interval, and gives the rows that appeared or changed.
func (c *Client) Watch(interval time.Duration) *Watch {
	return &Watch{client: c, interval: interval, due: time.Now(), rows: map[uint32]Row{}}
}

// Next waits for the next change until the context is done; one collect takes DefaultTimeout at most, where the context has
// no deadline. Where a collect fails its error is returned, and the watch stands as it was: whoever calls Next again has
// missed no change but those that were followed by another one of the same node between two collects.
func (w *Watch) Next(ctx context.Context) (Change, error) {
	for len(w.changes) == 0 {
		if err := sleep(ctx, time.Until(w.due)); err != nil {
			return Change{}, &DeadlineExceededError{done: err}
		}
		w.due = time.Now().Add(w.interval)
		rows, err := w.client.Collect(ctx)
		if err != nil {
			return Change{}, err
		}
		w.compare(rows)
	}
	change := w.changes[0]
	w.changes = w.changes[1:]
	return change, nil
}

func (w *Watch) compare(rows []Row) {
	for _, row := range rows {
		old, isKnown := w.rows[row.Node]
		change := Change{Node: row.Node, New: row}
		if isKnown {
			change.Old = &old
		}
		// Under one number a node never has two values.
		if !isKnown || old.Number != row.Number {
			w.changes = append(w.changes, change)
			w.rows[row.Node] = row
		}
	}
}

// Waits so long, or until the context is done, whose error it tells then.
func sleep(ctx context.Context, pause time.Duration) error {
	timer := time.NewTimer(pause)
	defer timer.Stop()
	select {
	case <-timer.C:
		return ctx.Err()
	case <-ctx.Done():
		return ctx.Err()
	}
}
