package flagops

import (
	"errors"
	"io"
	"math/rand"
	"net"
	"os"
	"time"
)

// longestPause is the longest time between the end of a connection and the next one.
const longestPause = time.Minute

// watch reads the document again as soon as it is another file or has other times or another size.
func (c *Client) watch(path string, every time.Duration, seen os.FileInfo) {
	defer c.workers.Done()
	for c.pause(every) {
		found, err := os.Stat(path)
		if err == nil && !isSame(seen, found) {
			err = c.openFile(path)
			if err == nil || errors.As(err, new(Refused)) && !errors.Is(err, memory) {
				seen = found
			}
		}
		if err != nil {
			c.failed(err)
		}
	}
}

func isSame(one, other os.FileInfo) bool {
	return os.SameFile(one, other) && one.Size() == other.Size() && one.ModTime().Equal(other.ModTime())
}

func (c *Client) openFile(path string) error {
	document, err := os.ReadFile(path)
	if err != nil {
		return err
	}
	return c.Open(document)
}

// follow reads the stream of a service. After each end it connects again: after the first pause, then after twice as long each
// time, up to a minute, with some chance in it.
func (c *Client) follow(address string, first time.Duration) {
	defer c.workers.Done()
	for pause := first; ; {
		came, err := c.followOnce(address)
		if c.isClosed() {
			return
		}
		if err != nil {
			c.failed(err)
		}
		if came {
			pause = first
		}
		if !c.pause(pause/2 + time.Duration(rand.Int63n(int64(pause/2)+1))) {
			return
		}
		if pause *= 2; pause > longestPause {
			pause = longestPause
		}
	}
}

// followOnce follows one connection to its end, and reports whether a snapshot came.
func (c *Client) followOnce(address string) (came bool, err error) {
	peer, err := net.DialTimeout("tcp", address, 30*time.Second)
	if err != nil {
		return false, err
	}
	defer peer.Close()
	if !c.setPeer(peer) {
		return false, nil
	}
	defer c.setPeer(nil)
	err = c.onceThereIsMemory(c.incoming.connect)
	for piece := make([]byte, 262_144); err == nil; {
		var count int
		count, err = peer.Read(piece)
		if count > 0 {
			whole, fault := c.feed(piece[:count])
			came = came || whole
			if fault != nil {
				return came, fault
			}
		}
	}
	if errors.Is(err, io.EOF) {
		err = nil
	}
	return came, err
}

// feed takes a piece, and then the flags that it made whole.
func (c *Client) feed(piece []byte) (came bool, err error) {
	err = c.onceThereIsMemory(func() (err error) {
		came, err = c.incoming.feed(piece)
		return err
	})
	if err == nil && came {
		err = c.onceThereIsMemory(c.take)
	}
	return came, err
}

// onceThereIsMemory makes a call under the lock, again each second while memory is short.
func (c *Client) onceThereIsMemory(call func() error) error {
	for {
		c.lock.Lock()
		err := call()
		c.lock.Unlock()
		if !errors.Is(err, memory) {
			return err
		}
		c.failed(err)
		if !c.pause(time.Second) {
			return err
		}
	}
}

// pause waits, and reports whether the client is still open.
func (c *Client) pause(duration time.Duration) bool {
	select {
	case <-c.stop:
		return false
	case <-time.After(duration):
		return true
	}
}
