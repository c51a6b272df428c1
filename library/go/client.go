// Package flagops resolves feature flags in this process, by libflagops: what each resolution answers is proved. Any goroutine may
// call any method of a Client.
package flagops

import (
	"bytes"
	"encoding/json"
	"errors"
	"net"
	"os"
	"strings"
	"sync"
	"sync/atomic"
	"time"
)

// Options say where the flags come from, and what becomes of the note lines that rollouts are planned on.
type Options struct {
	// File is a document that is watched, and Stream the "host:port" of a `flagops serve` or `ofrep --stream` that is followed: one
	// of them at most. With neither, the flags are those that Open is given.
	File, Stream string
	// Log is a file to which each input that a resolution reached is appended as a note line, before the resolution returns. So a
	// process that is killed has in its log whatever it answered.
	Log string
	// Batches above 0 has the lines written to Log this often, and by Close: a process that is killed may lack the last ones.
	Batches time.Duration
	// Most is how many bytes of note lines a seat keeps until Notes takes them: where there is a Log, until they are written.
	// 0 is 1 MiB with a Log, and else none.
	Most int
	// Every is the time between two looks at File (half a second), and First the pause after a connection to Stream (a second).
	Every, First time.Duration
	// Failed is called where new flags could not be had, which leaves those of before, and where a batch was not written or not whole.
	Failed func(error)
}

// Resolution is what a flag is for somebody. Without a variant the value is nil and the caller's default is meant. The reason and
// the code (or "") are OpenFeature's.
type Resolution struct {
	Value        json.RawMessage
	Variant      string
	HasVariant   bool
	Reason, Code string
}

// ErrClosed says that the client is closed.
var ErrClosed = errors.New("flagops: the client is closed")

var fallbacks = [...][]byte{[]byte("false"), []byte(`""`), []byte("0"), []byte("{}"), []byte("0")}

// Client resolves flags for a whole process.
type Client struct {
	// lock is held in each call of incoming and newest, and where what follows it changes.
	lock             sync.Mutex
	incoming, newest *seat
	peer             net.Conn
	closed           bool
	free             []*place
	taken            sync.WaitGroup // of places that are not free

	version atomic.Uint64
	first   chan struct{}
	stop    chan struct{}
	workers sync.WaitGroup
	log     *lineLog
	// recordsFirst says that lines are in the log before a resolution returns.
	recordsFirst bool
	most         int
	failed       func(error)
}

// A place is a seat of the pool, and which flags it has.
type place struct {
	seat    *seat
	version uint64
}

// New makes a client.
func New(options Options) (*Client, error) {
	if options.File != "" && options.Stream != "" {
		return nil, errors.New("flagops: the flags come from a file or from a stream, and not from both")
	}
	c := &Client{first: make(chan struct{}), stop: make(chan struct{}), most: options.Most, failed: options.Failed}
	if c.failed == nil {
		c.failed = func(error) {}
	}
	var err error
	if c.incoming, err = newSeat(); err == nil {
		c.newest, err = newSeat()
	}
	if err == nil && options.Log != "" {
		if c.most == 0 {
			c.most = 1 << 20
		}
		c.log, err = openLog(options.Log)
	}
	if err == nil {
		err = c.begin(options)
	}
	if err != nil {
		c.Close()
		return nil, err
	}
	c.recordsFirst = c.log != nil && options.Batches <= 0
	if c.log != nil && options.Batches > 0 {
		c.workers.Add(1)
		go c.writeBatches(options.Batches)
	}
	return c, nil
}

// begin opens the source of the flags.
func (c *Client) begin(options Options) error {
	if options.File != "" {
		seen, err := os.Stat(options.File)
		if err == nil {
			err = c.openFile(options.File)
		}
		if err != nil {
			return err
		}
		c.workers.Add(1)
		go c.watch(options.File, orElse(options.Every, time.Second/2), seen)
	}
	if options.Stream != "" {
		c.workers.Add(1)
		go c.follow(options.Stream, orElse(options.First, time.Second))
	}
	return nil
}

func orElse(duration, other time.Duration) time.Duration {
	if duration > 0 {
		return duration
	}
	return other
}

// Open takes the flags of a document. Where it is refused the flags are those of before.
func (c *Client) Open(document []byte) error {
	c.lock.Lock()
	defer c.lock.Unlock()
	if err := c.incoming.open(document); err != nil {
		return err
	}
	return c.take()
}

// take makes the flags that came those of all seats. The lock is held.
func (c *Client) take() error {
	if err := c.incoming.shareTo(c.newest); err != nil {
		return err
	}
	if c.version.Add(1) == 1 {
		close(c.first)
	}
	return nil
}

// Wait waits for the first flags, at most so long, and reports whether there are any.
func (c *Client) Wait(most time.Duration) bool {
	select {
	case <-c.first:
	case <-c.stop:
	case <-time.After(most):
	}
	return c.version.Load() > 0
}

// Keys are the keys of the flags, and whether each is good. A broken one resolves to the default, with PARSE_ERROR.
func (c *Client) Keys() (map[string]bool, error) {
	c.lock.Lock()
	defer c.lock.Unlock()
	lines, err := c.newest.keys()
	if err != nil {
		return nil, err
	}
	found := map[string]bool{}
	for _, line := range strings.Split(strings.TrimSuffix(string(lines), "\n"), "\n") {
		at := strings.LastIndexByte(line, ' ')
		if at < 0 {
			continue
		}
		var key string
		if err := json.Unmarshal([]byte(line[:at]), &key); err != nil {
			return nil, err
		}
		found[key] = line[at+1:] == "good"
	}
	return found, nil
}

// Resolve is what a flag is in a context, a JSON object whose `targetingKey` says whom you ask for, at a moment in seconds since 1970.
// Its error is a Refused, NotRecorded or ErrClosed.
func (c *Client) Resolve(key string, kind Kind, context []byte, moment uint64) (Resolution, error) {
	if int(kind) >= len(fallbacks) {
		return Resolution{}, noKind
	}
	p, err := c.place()
	if err != nil {
		return Resolution{}, err
	}
	defer c.giveBack(p)
	found, err := p.seat.resolve([]byte(key), kind, fallbacks[kind], context, moment)
	if err != nil {
		return Resolution{}, err
	}
	result := Resolution{Reason: found.reason, Code: found.code}
	if found.hasVariant {
		result.Value, result.Variant, result.HasVariant = append(json.RawMessage(nil), found.value...), string(found.variant), true
	}
	if c.recordsFirst {
		err = c.record(p)
	}
	if err != nil {
		return Resolution{}, err
	}
	return result, nil
}

// record has the lines of what the seat reached written.
func (c *Client) record(p *place) error {
	lines, err := p.seat.notes()
	if err != nil && err != full {
		return NotRecorded{err}
	}
	if fault := c.log.write(lines); fault != nil {
		return fault
	}
	if err != nil {
		return NotRecorded{err}
	}
	return nil
}

// place is a seat that nobody has, with the newest flags.
func (c *Client) place() (*place, error) {
	c.lock.Lock()
	defer c.lock.Unlock()
	if c.closed {
		return nil, ErrClosed
	}
	p, err := c.freePlace()
	if err != nil {
		return nil, err
	}
	if version := c.version.Load(); p.version != version {
		if err := c.newest.shareTo(p.seat); err != nil {
			c.free = append(c.free, p)
			return nil, err
		}
		p.version = version
	}
	c.taken.Add(1)
	return p, nil
}

// freePlace takes a place out of the pool, or makes one. The lock is held.
func (c *Client) freePlace() (*place, error) {
	if last := len(c.free) - 1; last >= 0 {
		p := c.free[last]
		c.free = c.free[:last]
		return p, nil
	}
	made, err := newSeat()
	if err == nil && c.most > 0 {
		err = made.record(c.most)
	}
	if err != nil {
		return nil, err
	}
	return &place{seat: made}, nil
}

func (c *Client) giveBack(p *place) {
	c.lock.Lock()
	c.free = append(c.free, p)
	c.lock.Unlock()
	c.taken.Done()
}

// Notes takes the note lines that the seats keep, each once, where there is no Log; lost says that one had no room and was left
// out. It does not see what resolutions that still run have reached: call it again.
func (c *Client) Notes() (lines []byte, lost bool, err error) {
	if c.log != nil {
		return nil, false, errors.New("flagops: the lines go to the log")
	}
	return c.takeNotes()
}

// takeNotes takes the lines of all seats that are free.
func (c *Client) takeNotes() (lines []byte, lost bool, err error) {
	c.lock.Lock()
	defer c.lock.Unlock()
	taken := map[string]struct{}{}
	for _, p := range c.free {
		found, err := p.seat.notes()
		if err != nil && err != full {
			return lines, lost, err
		}
		lost = lost || err == full
		for _, line := range bytes.SplitAfter(found, []byte("\n")) {
			if _, is := taken[string(line)]; !is && len(line) > 0 {
				taken[string(line)] = struct{}{}
				lines = append(lines, line...)
			}
		}
	}
	return lines, lost, nil
}

// writeBatches writes the lines that the seats keep, every so often and at last once nobody has a seat.
func (c *Client) writeBatches(every time.Duration) {
	defer c.workers.Done()
	var left []byte
	for isOpen := true; isOpen; {
		isOpen = c.pause(every)
		lines, lost, err := c.takeNotes()
		left = append(left, lines...)
		if lost {
			c.failed(errors.New("flagops: note lines had no room and are lost: write batches more often, or keep more"))
		}
		if err != nil {
			c.failed(err)
		}
		if err = c.log.write(left); err != nil {
			c.failed(err)
			continue
		}
		left = nil
	}
}

func (c *Client) isClosed() bool {
	c.lock.Lock()
	defer c.lock.Unlock()
	return c.closed
}

// setPeer notes the connection that Close has to cut, and reports whether the client is open.
func (c *Client) setPeer(peer net.Conn) bool {
	c.lock.Lock()
	defer c.lock.Unlock()
	c.peer = peer
	return !c.closed
}

// Close ends the client, once those resolutions have returned that were called before. Later ones answer ErrClosed.
func (c *Client) Close() error {
	c.lock.Lock()
	if c.closed {
		c.lock.Unlock()
		return nil
	}
	c.closed = true
	if c.peer != nil {
		c.peer.Close()
	}
	c.lock.Unlock()
	c.taken.Wait()
	close(c.stop)
	c.workers.Wait()
	if c.log != nil {
		return c.log.close()
	}
	return nil
}
