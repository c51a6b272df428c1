package flagops

import (
	"bytes"
	"testing"
)

func TestRollouts(t *testing.T) {
	flags, request := []byte(document), []byte(`{"plan":1,"flag":"color","totals":{"red":40,"blue":60}}`)
	tally, err := Tally(flags, request, []byte("[\"color\",0,null,\"colorann\"]\n[\"color\",0,null,\"colorbob\"]\n"))
	if err != nil || !bytes.Contains(tally, []byte(`"inputs":2,`)) {
		t.Fatal(string(tally), err)
	}
	plan, hasRule, err := Plan(flags, request, tally)
	if err != nil || !hasRule {
		t.Fatal(string(plan), hasRule, err)
	}
	if err := Verify(flags, request, tally, plan); err != nil {
		t.Error(err)
	}
	changed, err := Apply(flags, request, tally, plan)
	if err != nil || bytes.Equal(changed, flags) {
		t.Error(string(changed), err)
	}
	open(t, client(t, Options{}), string(changed))
}

func TestNoRule(t *testing.T) {
	flags, never := []byte(document), []byte(`{"plan":1,"flag":"color","totals":{"red":100},"forbid":[["blue","red"]]}`)
	tally, err := Tally(flags, never, nil)
	if err != nil {
		t.Fatal(err)
	}
	plan, hasRule, err := Plan(flags, never, tally)
	if err != nil || hasRule || Verify(flags, never, tally, plan) != nil {
		t.Fatal(string(plan), hasRule, err)
	}
	if _, err := Apply(flags, never, tally, plan); err != noRule {
		t.Error(err)
	}
	if _, err := Tally(flags, never, []byte("x\n")); err != Refused(71) {
		t.Error(err)
	}
}
