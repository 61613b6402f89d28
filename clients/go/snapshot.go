package ccnode

import (
	"context"
	"errors"
)

// Snapshot is what all nodes had at one moment.
type Snapshot struct {
	// Rows are as Collect gives them.
	Rows []Row
	// Collects is how many collects it took, 2 at least.
	Collects int
}

// Snapshot is what all nodes had at one moment: it collects until two collects in a row agree. Where others write all the
// time no two may agree until the context is done. A longer deadline gives it more tries.
func (c *Client) Snapshot(ctx context.Context) (Snapshot, error) {
	ctx, cancel := withDeadline(ctx)
	defer cancel()
	var last []Row
	for collects := 0; ; collects++ {
		rows, err := c.Collect(ctx)
		if err != nil {
			return Snapshot{}, behind(collects, err)
		}
		if collects > 0 && areSame(rows, last) {
			return Snapshot{Rows: rows, Collects: collects + 1}, nil
		}
		last = rows
	}
}

// Why a collect failed behind so many others: no two in a row of these agree.
func behind(collects int, err error) error {
	var late *DeadlineExceededError
	if errors.As(err, &late) && collects > 1 {
		late.collects = collects
	}
	return err
}

func areSame(rows, others []Row) bool {
	if len(rows) != len(others) {
		return false
	}
	for place, row := range rows {
		// Under one number a node never has two values.
		if row.Node != others[place].Node || row.Number != others[place].Number {
			return false
		}
	}
	return true
}
