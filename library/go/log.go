package flagops

import (
	"bytes"
	"errors"
	"fmt"
	"io"
	"os"
	"sync"
	"syscall"
)

// remembered is how many of the last lines a log remembers at least; at most it remembers twice as many.
const remembered = 65_536

// NotRecorded says that note lines could not be written, so that nothing is answered.
type NotRecorded struct{ Cause error }

func (n NotRecorded) Error() string { return fmt.Sprintf("flagops: not recorded: %v", n.Cause) }

// Unwrap gives the system's error.
func (n NotRecorded) Unwrap() error { return n.Cause }

// lineLog is a file to which whole lines are appended. Nobody else may write to it meanwhile: it is locked.
// A line that was written is remembered, and not written again.
type lineLog struct {
	lock         sync.Mutex
	file         *os.File
	size         int64
	newer, older map[string]struct{}
}

func openLog(path string) (*lineLog, error) {
	file, err := os.OpenFile(path, os.O_RDWR|os.O_APPEND|os.O_CREATE, 0o600)
	if err != nil {
		return nil, err
	}
	err = syscall.Flock(int(file.Fd()), syscall.LOCK_EX|syscall.LOCK_NB)
	size := int64(0)
	if err == nil {
		size, err = wholeLines(file)
	}
	if err == nil {
		err = file.Truncate(size)
	}
	if err != nil {
		file.Close()
		return nil, err
	}
	return &lineLog{file: file, size: size, newer: map[string]struct{}{}}, nil
}

// wholeLines is how many bytes of the file are whole lines.
func wholeLines(file *os.File) (int64, error) {
	end, err := file.Seek(0, io.SeekEnd)
	if err != nil {
		return 0, err
	}
	for end > 0 {
		begin := end - 65_536
		if begin < 0 {
			begin = 0
		}
		piece := make([]byte, end-begin)
		if _, err := file.ReadAt(piece, begin); err != nil {
			return 0, err
		}
		if at := bytes.LastIndexByte(piece, '\n'); at >= 0 {
			return begin + int64(at) + 1, nil
		}
		end = begin
	}
	return 0, nil
}

func (l *lineLog) has(line string) bool {
	_, isNew := l.newer[line]
	_, isOld := l.older[line]
	return isNew || isOld
}

// write returns once the lines are in the file, all or none.
func (l *lineLog) write(lines []byte) error {
	l.lock.Lock()
	defer l.lock.Unlock()
	var wanted []string
	var text []byte
	for _, line := range bytes.SplitAfter(lines, []byte("\n")) {
		if len(line) > 0 && !l.has(string(line)) {
			wanted, text = append(wanted, string(line)), append(text, line...)
		}
	}
	if len(wanted) == 0 {
		return nil
	}
	if l.file == nil {
		return NotRecorded{errors.New("the log is closed")}
	}
	// A part of a line that a failed write left is cut off first.
	if err := l.file.Truncate(l.size); err != nil {
		return NotRecorded{err}
	}
	if _, err := l.file.Write(text); err != nil {
		return NotRecorded{err}
	}
	l.size += int64(len(text))
	if len(l.newer) >= remembered {
		l.older, l.newer = l.newer, map[string]struct{}{}
	}
	for _, line := range wanted {
		l.newer[line] = struct{}{}
	}
	return nil
}

func (l *lineLog) close() error {
	l.lock.Lock()
	defer l.lock.Unlock()
	if l.file == nil {
		return nil
	}
	file := l.file
	l.file = nil
	return file.Close()
}
