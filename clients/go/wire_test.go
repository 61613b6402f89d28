package ccnode

import (
	"encoding/hex"
	"encoding/json"
	"errors"
	"os"
	"reflect"
	"strconv"
	"strings"
	"testing"
)

// The bytes and their meanings in clients/vectors.json.
type vectors struct {
	Asks      []askVector
	Replies   []replyVector
	Refusals  []refusalVector
	Malformed []malformedVector
}

type askVector struct{ Name, Session, Request, Command, Argument, Frame string }

type replyVector struct {
	Name, Session, Request, Answer, Frame string
	Rows                                  []rowVector
	Max, Flag                             string
	Set                                   []string
}

type rowVector struct {
	Node, Number, Text, Max, Flag string
	Set                           []string
}

type refusalVector struct{ Number, Name, Carried, Frame string }

type malformedVector struct{ Name, Fault, Frame string }

func readVectors(t *testing.T) vectors {
	t.Helper()
	text, err := os.ReadFile("../vectors.json")
	if err != nil {
		t.Fatal(err)
	}
	var read vectors
	if err := json.Unmarshal(text, &read); err != nil {
		t.Fatal(err)
	}
	return read
}

func bytesOf(frame string) []byte { return unhex(strings.ReplaceAll(frame, " ", "")) }

func number(text string) uint64 {
	if text == "" {
		return 0
	}
	parsed, err := strconv.ParseUint(text, 10, 64)
	if err != nil {
		panic(err)
	}
	return parsed
}

func numbers(texts []string) []uint32 {
	var parsed []uint32
	for _, text := range texts {
		parsed = append(parsed, uint32(number(text)))
	}
	return parsed
}

func commandOf(t *testing.T, vector askVector) command {
	switch vector.Command {
	case "store":
		asked, err := storeCommand(unhex(vector.Argument))
		if err != nil {
			t.Fatal(err)
		}
		return asked
	case "max":
		return maxCommand(number(vector.Argument))
	case "add":
		return addCommand(uint32(number(vector.Argument)))
	}
	return map[string]command{
		"collect": collectCommand, "read_max": readMaxCommand, "flag": setFlagCommand, "read_flag": readFlagCommand,
		"read_set": readSetCommand,
	}[vector.Command]
}

func answerOf(vector replyVector) answer {
	kinds := map[string]answerKind{
		"Stored": storedAnswer, "Seen": seenAnswer, "Max": maxAnswer, "Flag": flagAnswer, "Set": setAnswer,
	}
	made := answer{kind: kinds[vector.Answer], max: number(vector.Max), flag: vector.Flag == "1", numbers: numbers(vector.Set)}
	for _, row := range vector.Rows {
		made.rows = append(made.rows, Row{
			Node: uint32(number(row.Node)), Number: number(row.Number), Text: unhex(row.Text), Max: number(row.Max),
			Flag: row.Flag == "1", Set: numbers(row.Set),
		})
	}
	return made
}

func decode(frame []byte) (told, error) {
	length, err := decodeLength(frame[:4])
	if err != nil {
		return told{}, err
	}
	return decodeBody(frame[4 : 4+length])
}

func TestAsks(t *testing.T) {
	for _, vector := range readVectors(t).Asks {
		frame := encodeAsk(number(vector.Session), number(vector.Request), commandOf(t, vector))
		if got, want := hex.EncodeToString(frame), strings.ReplaceAll(vector.Frame, " ", ""); got != want {
			t.Errorf("%s: %s, not %s", vector.Name, got, want)
		}
	}
}

func TestReplies(t *testing.T) {
	for _, vector := range readVectors(t).Replies {
		got, err := decode(bytesOf(vector.Frame))
		want := told{session: number(vector.Session), request: number(vector.Request), answer: answerOf(vector)}
		if err != nil || !reflect.DeepEqual(got, want) {
			t.Errorf("%s: %v and %v, not %v", vector.Name, got, err, want)
		}
	}
}

func TestRefusals(t *testing.T) {
	for _, vector := range readVectors(t).Refusals {
		got, err := decode(bytesOf(vector.Frame))
		refusal := Refusal(number(vector.Number))
		want := told{session: 7, request: 1, refusal: refusal, carried: number(vector.Carried)}
		if err != nil || !reflect.DeepEqual(got, want) || refusal.String() != vector.Name {
			t.Errorf("%s: %v and %v, not %v", vector.Name, got, err, want)
		}
	}
}

func TestMalformed(t *testing.T) {
	for _, vector := range readVectors(t).Malformed {
		_, err := decode(bytesOf(vector.Frame))
		var malformed *MalformedError
		if !errors.As(err, &malformed) || malformed.Fault != Fault(vector.Fault) {
			t.Errorf("%s: %v, not %s", vector.Name, err, vector.Fault)
		}
	}
}

func TestEachReplyAndEachRefusalCutShort(t *testing.T) {
	read := readVectors(t)
	var frames []string
	for _, vector := range read.Replies {
		frames = append(frames, vector.Frame)
	}
	for _, vector := range read.Refusals {
		frames = append(frames, vector.Frame)
	}
	for _, frame := range frames {
		body := bytesOf(frame)[4:]
		for length := range body {
			_, err := decodeBody(body[:length])
			var malformed *MalformedError
			if !errors.As(err, &malformed) || malformed.Fault != Short {
				t.Errorf("%s cut to %d: %v, not Short", frame, length, err)
			}
		}
	}
}

func TestEachByteChanged(t *testing.T) {
	for _, vector := range readVectors(t).Replies {
		body := bytesOf(vector.Frame)[4:]
		for place := range body {
			for value := 0; value < 256; value++ {
				changed := append([]byte{}, body...)
				changed[place] = byte(value)
				_, err := decodeBody(changed)
				var malformed *MalformedError
				if err != nil && !errors.As(err, &malformed) {
					t.Errorf("%x: %v", changed, err)
				}
			}
		}
	}
}

func TestATextThatIsTooLong(t *testing.T) {
	if _, err := storeCommand(make([]byte, 65)); !errors.Is(err, ErrInvalidArgument) {
		t.Errorf("%v, not ErrInvalidArgument", err)
	}
}
