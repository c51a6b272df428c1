package flagops

// #cgo CFLAGS: -I${SRCDIR}/../../release/x86_64-linux
// #cgo LDFLAGS: ${SRCDIR}/../../release/x86_64-linux/libflagops.a
// #include <flagops.h>
import "C"

import (
	"fmt"
	"runtime"
	"unsafe"
)

// Kind is the kind of value that is asked for.
type Kind uint32

// The kinds of values. A flag of whole numbers answers Float, too.
const (
	Bool    Kind = C.FLAGOPS_BOOL
	String  Kind = C.FLAGOPS_STRING
	Integer Kind = C.FLAGOPS_INTEGER
	Object  Kind = C.FLAGOPS_OBJECT
	Float   Kind = C.FLAGOPS_FLOAT
)

// Refused is the number of a refusal, as flagops.h has them.
type Refused uint32

const (
	memory   = Refused(C.FLAGOPS_MEMORY)
	room     = Refused(C.FLAGOPS_ROOM)
	full     = Refused(C.FLAGOPS_FULL)
	noKind   = Refused(C.FLAGOPS_KIND)
	contexts = Refused(C.FLAGOPS_CONTEXT)
)

var refusals = map[Refused]string{
	C.FLAGOPS_MEMORY: "memory ran out", C.FLAGOPS_EMPTY: "there is no seat", C.FLAGOPS_ROOM: "the answer needs more room",
	C.FLAGOPS_KEY: "the key is not a text", C.FLAGOPS_KIND: "no kind of value has this number",
	C.FLAGOPS_MOMENT: "the moment is too late", C.FLAGOPS_FULL: "a note line had no room",
	C.FLAGOPS_NO_CONTEXT: "no context was read", C.FLAGOPS_NO_RULE: "the plan has no rule, since none fits the request",
	C.FLAGOPS_DOCUMENT + 1: "the document: not a JSON text", C.FLAGOPS_DOCUMENT + 2: "the document: no object of flags",
	C.FLAGOPS_DOCUMENT + 3: "the document: too large",
	C.FLAGOPS_FALLBACK + 1: "the default: not a JSON text", C.FLAGOPS_FALLBACK + 2: "the default: a number that is not whole",
	C.FLAGOPS_FALLBACK + 3: "the default: too large", C.FLAGOPS_FALLBACK + 4: "the default: too deep",
	C.FLAGOPS_CONTEXT + 1: "the context: not a JSON text", C.FLAGOPS_CONTEXT + 3: "the context: too large",
	C.FLAGOPS_CONTEXT + 4: "the context: too deep",
	C.FLAGOPS_FRAME + 1:   "the stream: a length that no frame has",
	C.FLAGOPS_FRAME + 2:   "the stream: a number that is not above the last one",
	C.FLAGOPS_FRAME + 3:   "the stream: a document that is refused", C.FLAGOPS_FRAME + 4: "the stream: it had a fault before",
}

func (r Refused) Error() string {
	if why, found := refusals[r]; found {
		return "flagops: " + why
	}
	return fmt.Sprintf("flagops: refused with %d", uint32(r))
}

var (
	reasons = [...]string{"STATIC", "DEFAULT", "TARGETING_MATCH", "DISABLED", "ERROR"}
	codes   = [...]string{"", "PROVIDER_NOT_READY", "FLAG_NOT_FOUND", "PARSE_ERROR", "TYPE_MISMATCH", "INVALID_CONTEXT", "GENERAL"}
)

// A seat of the library. One call at a time has it: its owner sees to that.
type seat struct {
	c   C.flagops_seat
	out []byte
}

// answer is what a resolution writes; its bytes are the seat's, up to the next call.
type answer struct {
	value, variant []byte
	hasVariant     bool
	reason, code   string
}

func newSeat() (*seat, error) {
	s := &seat{out: make([]byte, 4096)}
	if err := must(C.flagops_new(&s.c)); err != nil {
		return nil, err
	}
	runtime.SetFinalizer(s, func(s *seat) { C.flagops_close(&s.c) })
	return s, nil
}

func must(number C.uint32_t) error {
	if number == C.FLAGOPS_OK {
		return nil
	}
	return Refused(number)
}

// in is the address of the bytes, which is never nil.
func in(bytes []byte) *C.uint8_t {
	if len(bytes) == 0 {
		return (*C.uint8_t)(unsafe.Pointer(&[1]byte{}))
	}
	return (*C.uint8_t)(unsafe.Pointer(&bytes[0]))
}

func (s *seat) open(document []byte) error {
	return must(C.flagops_open(&s.c, in(document), C.size_t(len(document))))
}

// shareTo hands the flags of s to another seat.
func (s *seat) shareTo(other *seat) error { return must(C.flagops_share(&s.c, &other.c)) }

func (s *seat) connect() error { return must(C.flagops_connect(&s.c)) }

// feed takes the next bytes of a stream and reports whether they made a snapshot whole.
func (s *seat) feed(piece []byte) (bool, error) {
	var number C.uint64_t
	var came C.bool
	err := must(C.flagops_feed(&s.c, in(piece), C.size_t(len(piece)), &number, &came))
	return bool(came), err
}

func (s *seat) record(most int) error { return must(C.flagops_record(&s.c, C.size_t(most))) }

// written calls with the seat's room, and once more with as much as is wanted.
func (s *seat) written(call func(out *C.uint8_t, room C.size_t, written *C.size_t) C.uint32_t) ([]byte, error) {
	var written C.size_t
	err := must(call(in(s.out), C.size_t(len(s.out)), &written))
	if err == room {
		s.out = make([]byte, 2*int(written))
		err = must(call(in(s.out), C.size_t(len(s.out)), &written))
	}
	if err != nil && err != full {
		return nil, err
	}
	return s.out[:written], err
}

func (s *seat) keys() ([]byte, error) {
	return s.written(func(out *C.uint8_t, room C.size_t, written *C.size_t) C.uint32_t {
		return C.flagops_keys(&s.c, out, room, written)
	})
}

// notes takes the lines that are kept; the error is FULL, with the lines, where one had no room.
func (s *seat) notes() ([]byte, error) {
	return s.written(func(out *C.uint8_t, room C.size_t, written *C.size_t) C.uint32_t {
		return C.flagops_notes(&s.c, out, room, written)
	})
}

func (s *seat) resolve(key []byte, kind Kind, fallback, context []byte, moment uint64) (answer, error) {
	var details C.flagops_details
	out, err := s.written(func(out *C.uint8_t, room C.size_t, written *C.size_t) C.uint32_t {
		return C.flagops_resolve(&s.c, in(key), C.size_t(len(key)), C.uint32_t(kind), in(fallback), C.size_t(len(fallback)),
			in(context), C.size_t(len(context)), C.uint64_t(moment), out, room, written, &details)
	})
	if err != nil {
		return answer{}, err
	}
	value := int(details.value)
	return answer{out[:value], out[value:], bool(details.has_variant), reasons[details.reason], codes[details.code]}, nil
}

// About is the library's version, and the kit that it is proved with.
func About() (string, error) {
	s := &seat{out: make([]byte, 1024)}
	out, err := s.written(func(out *C.uint8_t, room C.size_t, written *C.size_t) C.uint32_t {
		return C.flagops_about(out, room, written)
	})
	return string(out), err
}
