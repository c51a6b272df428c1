package flagops

import (
	"bytes"
	"context"
	"encoding/binary"
	"encoding/json"
	"errors"
	"fmt"
	"net"
	"os"
	"path/filepath"
	"strings"
	"sync"
	"testing"
	"time"
)

const document = `{"flags":{
"broken":{"state":"ENABLED"},
"color":{"state":"ENABLED","variants":{"red":"r","blue":"b"},"defaultVariant":"red","targeting":{"fractional":[["red",50],["blue",50]]}},
"default":{"state":"ENABLED","variants":{"on":true,"off":false}},
"off":{"state":"DISABLED","variants":{"on":true},"defaultVariant":"on"},
"parts":{"state":"ENABLED","variants":{"a":{"x":[1,"é"]}},"defaultVariant":"a"},
"size":{"state":"ENABLED","variants":{"one":1,"two":2},"defaultVariant":"two"},
"yes":{"state":"ENABLED","variants":{"on":true},"defaultVariant":"on"}}}`

func client(t *testing.T, options Options) *Client {
	t.Helper()
	c, err := New(options)
	if err != nil {
		t.Fatal(err)
	}
	t.Cleanup(func() { c.Close() })
	return c
}

func open(t *testing.T, c *Client, text string) {
	t.Helper()
	if err := c.Open([]byte(text)); err != nil {
		t.Fatal(err)
	}
}

// valued is a document with one flag of this value.
func valued(value int) string {
	return fmt.Sprintf(`{"flags":{"n":{"state":"ENABLED","variants":{"v":%d},"defaultVariant":"v"}}}`, value)
}

// waitFor waits until the flag `n` has this value, however long that takes.
func waitFor(t *testing.T, c *Client, value int) {
	t.Helper()
	for {
		found, err := c.Resolve("n", Integer, []byte("{}"), 0)
		if err != nil {
			t.Fatal(err)
		}
		if string(found.Value) == fmt.Sprint(value) {
			return
		}
		time.Sleep(time.Millisecond)
	}
}

func TestAnswers(t *testing.T) {
	c := client(t, Options{})
	if found, _ := c.Resolve("yes", Bool, []byte("{}"), 0); found.Code != "PROVIDER_NOT_READY" || c.Wait(0) {
		t.Errorf("without flags: %+v", found)
	}
	open(t, c, document)
	for _, want := range []struct {
		key                          string
		kind                         Kind
		value, variant, reason, code string
	}{
		{"yes", Bool, "true", "on", "STATIC", ""},
		{"size", Integer, "2", "two", "STATIC", ""},
		{"parts", Object, `{"x":[1,"é"]}`, "a", "STATIC", ""},
		{"size", String, "", "", "ERROR", "TYPE_MISMATCH"},
		{"default", Bool, "", "", "DEFAULT", ""},
		{"off", Bool, "", "", "DISABLED", ""},
		{"broken", Bool, "", "", "ERROR", "PARSE_ERROR"},
		{"gone", Integer, "", "", "ERROR", "FLAG_NOT_FOUND"},
	} {
		found, err := c.Resolve(want.key, want.kind, []byte(`{"targetingKey":"ann"}`), 0)
		got := []string{string(found.Value), found.Variant, found.Reason, found.Code}
		if err != nil || strings.Join(got, "|") != strings.Join([]string{want.value, want.variant, want.reason, want.code}, "|") {
			t.Errorf("%s: %v %v", want.key, got, err)
		}
	}
	keys, err := c.Keys()
	if err != nil || len(keys) != 7 || keys["broken"] || !keys["yes"] {
		t.Errorf("keys: %v %v", keys, err)
	}
}

func TestRefusals(t *testing.T) {
	c := client(t, Options{})
	open(t, c, document)
	for text, number := range map[string]Refused{"{": 11, "{}": 12} {
		if err := c.Open([]byte(text)); !errors.Is(err, number) {
			t.Errorf("%s: %v", text, err)
		}
	}
	if _, err := c.Resolve("yes", Bool, []byte("{"), 0); !errors.Is(err, Refused(31)) {
		t.Error(err)
	}
	if _, err := c.Resolve("yes", 9, []byte("{}"), 0); !errors.Is(err, Refused(5)) {
		t.Error(err)
	}
	if found, err := c.Resolve("yes", Bool, []byte(`{"a":0.5}`), 0); err != nil || string(found.Value) != "true" {
		t.Error(found, err)
	}
	c.Close()
	if _, err := c.Resolve("yes", Bool, nil, 0); !errors.Is(err, ErrClosed) {
		t.Error(err)
	}
}

func TestMoreRoomThanAtFirst(t *testing.T) {
	c := client(t, Options{})
	text := strings.Repeat("é", 100_000)
	open(t, c, `{"flags":{"n":{"state":"ENABLED","variants":{"v":"`+text+`"},"defaultVariant":"v"}}}`)
	if found, err := c.Resolve("n", String, []byte("{}"), 0); err != nil || string(found.Value) != `"`+text+`"` {
		t.Error(len(found.Value), err)
	}
}

func TestFile(t *testing.T) {
	path := filepath.Join(t.TempDir(), "d")
	put := func(text string) {
		if err := os.WriteFile(path+".new", []byte(text), 0o600); err != nil {
			t.Fatal(err)
		}
		if err := os.Rename(path+".new", path); err != nil {
			t.Fatal(err)
		}
	}
	put(valued(1))
	faults := make(chan error, 100)
	c := client(t, Options{File: path, Every: time.Millisecond, Failed: func(err error) { faults <- err }})
	waitFor(t, c, 1)
	put("{")
	if err := <-faults; !errors.Is(err, Refused(11)) {
		t.Error(err)
	}
	waitFor(t, c, 1)
	put(valued(2))
	waitFor(t, c, 2)
}

func frame(number uint64, text string) []byte {
	head := binary.BigEndian.AppendUint32(nil, uint32(8+len(text)))
	return append(binary.BigEndian.AppendUint64(head, number), text...)
}

func TestStream(t *testing.T) {
	listener, err := net.Listen("tcp", "127.0.0.1:0")
	if err != nil {
		t.Fatal(err)
	}
	defer listener.Close()
	c := client(t, Options{Stream: listener.Addr().String(), First: time.Millisecond})
	for turn, frames := range [][]byte{
		append(append(frame(1, valued(1)), frame(7, valued(2))...), frame(8, valued(3))...),
		frame(1, valued(4)),
		append(frame(5, valued(5)), frame(5, valued(6))...),
		frame(1, valued(7)),
	} {
		peer, err := listener.Accept()
		if err != nil {
			t.Fatal(err)
		}
		for len(frames) > 0 {
			count := 1 + (turn*7+len(frames))%40
			if count > len(frames) {
				count = len(frames)
			}
			// (a number that is not above the last one ends the stream)
			if _, err := peer.Write(frames[:count]); err != nil {
				break
			}
			frames = frames[count:]
		}
		waitFor(t, c, []int{3, 4, 5, 7}[turn])
		peer.Close()
	}
}

func noteOf(user string) string { return `["color",0,null,"color` + user + "\"]\n" }

func resolveFor(t *testing.T, c *Client, user string) {
	t.Helper()
	if _, err := c.Resolve("color", String, []byte(`{"targetingKey":"`+user+`"}`), 0); err != nil {
		t.Error(err)
	}
}

func TestLog(t *testing.T) {
	path := filepath.Join(t.TempDir(), "log")
	if err := os.WriteFile(path, []byte(noteOf("earlier")+`["col`), 0o600); err != nil {
		t.Fatal(err)
	}
	c := client(t, Options{Log: path})
	open(t, c, document)
	wanted := noteOf("earlier")
	for _, user := range []string{"ann", "bob", "ann"} {
		resolveFor(t, c, user)
		if !strings.Contains(wanted, noteOf(user)) {
			wanted += noteOf(user)
		}
		if text, err := os.ReadFile(path); err != nil || string(text) != wanted {
			t.Errorf("%s, wanted %s: %v", text, wanted, err)
		}
	}
	if _, err := New(Options{Log: path}); err == nil {
		t.Error("two clients have one log")
	}
	c.Close()
	client(t, Options{Log: path})
}

func TestBatches(t *testing.T) {
	path := filepath.Join(t.TempDir(), "log")
	c := client(t, Options{Log: path, Batches: time.Millisecond})
	open(t, c, document)
	resolveFor(t, c, "ann")
	for {
		text, err := os.ReadFile(path)
		if err != nil {
			t.Fatal(err)
		}
		if string(text) == noteOf("ann") {
			break
		}
		time.Sleep(time.Millisecond)
	}
	c.Close()

	c = client(t, Options{Log: path, Batches: time.Hour})
	open(t, c, document)
	resolveFor(t, c, "bob")
	if text, err := os.ReadFile(path); err != nil || string(text) != noteOf("ann") {
		t.Error(string(text), err)
	}
	c.Close()
	if text, err := os.ReadFile(path); err != nil || string(text) != noteOf("ann")+noteOf("bob") {
		t.Error(string(text), err)
	}
}

func TestLogThatCannotBeWritten(t *testing.T) {
	c := client(t, Options{Log: filepath.Join(t.TempDir(), "log")})
	open(t, c, document)
	c.log.file.Close()
	var cause NotRecorded
	if _, err := c.Resolve("color", String, []byte(`{"targetingKey":"ann"}`), 0); !errors.As(err, &cause) {
		t.Error(err)
	}
}

func TestGoroutinesBesideNewFlags(t *testing.T) {
	c := client(t, Options{Most: 1 << 20})
	open(t, c, document)
	var asking sync.WaitGroup
	for worker := 0; worker < 8; worker++ {
		asking.Add(1)
		go func(worker int) {
			defer asking.Done()
			for number := 0; number < 300; number++ {
				resolveFor(t, c, fmt.Sprintf("%d-%d", worker, number))
			}
		}(worker)
	}
	for number := 0; number < 200; number++ {
		open(t, c, document)
	}
	asking.Wait()
	lines, lost, err := c.Notes()
	if err != nil || lost || bytes.Count(lines, []byte("\n")) != 2400 {
		t.Error(bytes.Count(lines, []byte("\n")), lost, err)
	}
}

func TestProvider(t *testing.T) {
	c := client(t, Options{})
	open(t, c, document)
	p, in := Provider{c}, context.Background()
	if got := p.BooleanEvaluation(in, "yes", false, nil); !got.Value || got.Variant != "on" || got.Reason != "STATIC" {
		t.Error(got)
	}
	if got := p.IntEvaluation(in, "size", 0, nil); got.Value != 2 {
		t.Error(got)
	}
	if got := p.FloatEvaluation(in, "size", 0, nil); got.Value != 2.0 {
		t.Error(got)
	}
	if got := p.StringEvaluation(in, "color", "x", map[string]any{"targetingKey": "ann"}); got.ErrorCode != "" || got.Value != "r" && got.Value != "b" {
		t.Error(got)
	}
	if got := p.ObjectEvaluation(in, "parts", nil, nil); fmt.Sprint(got.Value) != "map[x:[1 é]]" {
		t.Error(got)
	}
	if got := p.IntEvaluation(in, "yes", 5, nil); got.Value != 5 || got.ErrorCode != "TYPE_MISMATCH" {
		t.Error(got)
	}
	if got := p.IntEvaluation(in, "size", 5, map[string]any{"a": func() {}}); got.Value != 5 || got.ErrorCode != "INVALID_CONTEXT" {
		t.Error(got)
	}
}

func TestAbout(t *testing.T) {
	about, err := About()
	if err != nil || !strings.Contains(about, "rattle-kit") {
		t.Error(about, err)
	}
	if text, err := json.Marshal(about); err != nil || len(text) == 0 {
		t.Error(err)
	}
}
