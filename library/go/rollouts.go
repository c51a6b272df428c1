package flagops

// #include <flagops.h>
import "C"

// noRule says that a plan has no rule, since none fits the request.
const noRule = Refused(C.FLAGOPS_NO_RULE)

// Tally counts, for the request's page, how many inputs of note lines fall on each point of its rule. The lines rise strictly by their bytes.
func Tally(document, request, notes []byte) ([]byte, error) {
	return filled(func(out *C.uint8_t, room C.size_t, written *C.size_t) C.uint32_t {
		return C.flagops_tally(in(document), C.size_t(len(document)), in(request), C.size_t(len(request)), in(notes), C.size_t(len(notes)), out, room, written)
	})
}

// Plan gives the plan file of the rule that fits the request and costs the inputs of a tally the least, and true; or, with false, of what
// shows that no rule fits.
func Plan(document, request, tally []byte) (file []byte, hasRule bool, err error) {
	file, err = filled(func(out *C.uint8_t, room C.size_t, written *C.size_t) C.uint32_t {
		return C.flagops_plan(in(document), C.size_t(len(document)), in(request), C.size_t(len(request)), in(tally), C.size_t(len(tally)), out, room, written)
	})
	if err == noRule {
		return file, false, nil
	}
	return file, err == nil, err
}

// Verify reports why a plan file is not right for the request over a tally, and nil where it is.
func Verify(document, request, tally, plan []byte) error {
	return must(C.flagops_verify(in(document), C.size_t(len(document)), in(request), C.size_t(len(request)), in(tally), C.size_t(len(tally)),
		in(plan), C.size_t(len(plan))))
}

// Apply gives the document with the rule of a right plan file, and each other byte as it was.
func Apply(document, request, tally, plan []byte) ([]byte, error) {
	text, err := filled(func(out *C.uint8_t, room C.size_t, written *C.size_t) C.uint32_t {
		return C.flagops_apply(in(document), C.size_t(len(document)), in(request), C.size_t(len(request)), in(tally), C.size_t(len(tally)),
			in(plan), C.size_t(len(plan)), out, room, written)
	})
	if err != nil {
		return nil, err
	}
	return text, nil
}

// filled calls with room, and once more with as much as is wanted. The text is there beside noRule, too.
func filled(call func(out *C.uint8_t, room C.size_t, written *C.size_t) C.uint32_t) ([]byte, error) {
	var written C.size_t
	out := make([]byte, 4096)
	err := must(call(in(out), C.size_t(len(out)), &written))
	if err == room {
		out = make([]byte, int(written))
		err = must(call(in(out), C.size_t(len(out)), &written))
	}
	if err != nil && err != noRule {
		return nil, err
	}
	return out[:written], err
}
