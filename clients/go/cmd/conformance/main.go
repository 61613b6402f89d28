// Conformance asks nodes by a plan, and prints a line of JSON for each operation: a driver of clients/conformance.py, which
// has its words.
//
//	conformance OPERATIONS PLAN NODE,ADDRESS,SESSION...
package main

import (
	"context"
	"encoding/json"
	"errors"
	"fmt"
	"log"
	"os"
	"strconv"
	"strings"
	"sync"
	"time"

	"ccnode.invalid/ccnode"
)

const (
	name     = "go"
	patience = 120 * time.Second
	// Each fiftieth operation gets no time to speak of.
	haste = time.Millisecond
	// A snapshot ends by its deadline where others write all the time.
	snapshotPatience = 2 * time.Second
)

type line struct {
	Client    string `json:"client"`
	Session   uint64 `json:"session"`
	Node      int    `json:"node"`
	Operation string `json:"operation"`
	Argument  any    `json:"argument"`
	Start     int64  `json:"start"`
	End       int64  `json:"end"`
	Answer    any    `json:"answer"`
}

// A driver asks in one session.
type driver struct {
	operations int
	plan       string
	node       int
	address    string
	session    uint64
	client     *ccnode.Client
}

// What is read, by the letter of a plan.
var readings = map[byte]string{
	'c': "collect", 'n': "snapshot", 'M': "read_max", 'f': "read_flag", 'F': "read_flag", 'S': "read_set",
}

// The operation at a place, and its argument.
func (d *driver) operation(place int) (string, any) {
	letter := d.plan[(place+int(d.session))%len(d.plan)]
	switch {
	case letter == 's':
		return "store", fmt.Sprintf("%s-%d-%d", name, d.session, place)
	case letter == 'm':
		return "max", 1000*uint64(place) + d.session
	case letter == 'a':
		return "add", uint32(4*int(d.session) + 4*place/d.operations)
	case letter == 'f' && 2*place >= d.operations:
		return "flag", nil
	}
	return readings[letter], nil
}

func (d *driver) ask(ctx context.Context, operation string, argument any) (any, error) {
	switch operation {
	case "store":
		return "Stored", d.client.Store(ctx, []byte(argument.(string)))
	case "collect":
		rows, err := d.client.Collect(ctx)
		return rowsOf(rows), err
	case "snapshot":
		taken, err := d.client.Snapshot(ctx)
		return map[string]any{"rows": rowsOf(taken.Rows), "collects": taken.Collects}, err
	case "max":
		return "Stored", d.client.Max(ctx, argument.(uint64))
	case "read_max":
		return d.client.ReadMax(ctx)
	case "flag":
		return "Stored", d.client.Flag(ctx)
	case "read_flag":
		return d.client.ReadFlag(ctx)
	case "add":
		return "Stored", d.client.Add(ctx, argument.(uint32))
	}
	numbers, err := d.client.ReadSet(ctx)
	return listed(numbers), err
}

func rowsOf(rows []ccnode.Row) [][]any {
	told := [][]any{}
	for _, row := range rows {
		told = append(told, []any{row.Node, row.Number, string(row.Text), row.Max, row.Flag, listed(row.Set)})
	}
	return told
}

// JSON has null for a nil slice.
func listed(numbers []uint32) []uint32 { return append([]uint32{}, numbers...) }

// How long an operation at a place may take.
func timeoutOf(place int, operation string) time.Duration {
	switch {
	case place%50 == 25:
		return haste
	case operation == "snapshot":
		return snapshotPatience
	}
	return patience
}

func (d *driver) answer(place int, operation string, argument any) any {
	ctx, cancel := context.WithTimeout(context.Background(), timeoutOf(place, operation))
	defer cancel()
	answer, err := d.ask(ctx, operation, argument)
	var late *ccnode.DeadlineExceededError
	switch {
	case errors.As(err, &late) && late.IsPending:
		return map[string]string{"deadline": "pending"}
	case errors.As(err, &late):
		return map[string]string{"deadline": "unsent"}
	case err != nil:
		return map[string]string{"error": err.Error()}
	}
	return answer
}

func (d *driver) connect() error {
	ctx, cancel := context.WithTimeout(context.Background(), patience)
	defer cancel()
	client, err := ccnode.Connect(ctx, []string{d.address}, d.session)
	d.client = client
	return err
}

func (d *driver) drive(lines *json.Encoder, mutex *sync.Mutex) error {
	if err := d.connect(); err != nil {
		return err
	}
	for place := 0; place < d.operations; place++ {
		operation, argument := d.operation(place)
		start := time.Now().UnixMicro()
		answer := d.answer(place, operation, argument)
		end := time.Now().UnixMicro() + 1
		mutex.Lock()
		err := lines.Encode(line{name, d.session, d.node, operation, argument, start, end, answer})
		mutex.Unlock()
		if err != nil {
			return err
		}
		if place%400 == 399 {
			d.client.Close()
			if err := d.connect(); err != nil {
				return err
			}
		}
	}
	return d.client.Close()
}

func driverOf(operations int, plan, word string) (*driver, error) {
	parts := strings.Split(word, ",")
	if len(parts) != 3 {
		return nil, fmt.Errorf("%q isn't NODE,ADDRESS,SESSION", word)
	}
	node, err := strconv.Atoi(parts[0])
	if err != nil {
		return nil, err
	}
	session, err := strconv.ParseUint(parts[2], 10, 64)
	return &driver{operations: operations, plan: plan, node: node, address: parts[1], session: session}, err
}

func main() {
	operations, err := strconv.Atoi(os.Args[1])
	if err != nil {
		log.Fatal(err)
	}
	var group sync.WaitGroup
	var mutex sync.Mutex
	lines := json.NewEncoder(os.Stdout)
	for _, word := range os.Args[3:] {
		driver, err := driverOf(operations, os.Args[2], word)
		if err != nil {
			log.Fatal(err)
		}
		group.Add(1)
		go func() {
			defer group.Done()
			if err := driver.drive(lines, &mutex); err != nil {
				log.Fatal(err)
			}
		}()
	}
	group.Wait()
}
