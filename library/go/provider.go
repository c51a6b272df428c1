package flagops

import (
	"context"
	"encoding/json"
	"errors"
	"time"
)

// Provider resolves by a client, in the shape of a FeatureProvider of OpenFeature's SDK: its methods have the SDK's names, words and
// details, of types of this package, since the SDK's cannot be imported here. Go lets one be converted to the other, field by field.
type Provider struct{ Client *Client }

// Detail is what the SDK calls a ProviderResolutionDetail, its error as a code and a message.
type Detail struct {
	Reason, Variant         string
	ErrorCode, ErrorMessage string
}

// BoolDetail, StringDetail, FloatDetail, IntDetail and InterfaceDetail are a value and what is said of it.
type (
	BoolDetail struct {
		Value bool
		Detail
	}
	StringDetail struct {
		Value string
		Detail
	}
	FloatDetail struct {
		Value float64
		Detail
	}
	IntDetail struct {
		Value int64
		Detail
	}
	InterfaceDetail struct {
		Value any
		Detail
	}
)

// Name is the provider's name.
func (p Provider) Name() string { return "flagops" }

// Init waits for the first flags, up to five seconds.
func (p Provider) Init() { p.Client.Wait(5 * time.Second) }

// Shutdown closes the client.
func (p Provider) Shutdown() { p.Client.Close() }

// BooleanEvaluation resolves a flag of kind boolean.
func (p Provider) BooleanEvaluation(_ context.Context, flag string, fallback bool, in map[string]any) BoolDetail {
	value, detail := resolved(p.Client, flag, Bool, fallback, in)
	return BoolDetail{value, detail}
}

// StringEvaluation resolves a flag of kind text.
func (p Provider) StringEvaluation(_ context.Context, flag string, fallback string, in map[string]any) StringDetail {
	value, detail := resolved(p.Client, flag, String, fallback, in)
	return StringDetail{value, detail}
}

// IntEvaluation resolves a flag of whole numbers.
func (p Provider) IntEvaluation(_ context.Context, flag string, fallback int64, in map[string]any) IntDetail {
	value, detail := resolved(p.Client, flag, Integer, fallback, in)
	return IntDetail{value, detail}
}

// FloatEvaluation resolves a flag of floats, or of whole numbers, each as a float. One that no float64 can have is GENERAL.
func (p Provider) FloatEvaluation(_ context.Context, flag string, fallback float64, in map[string]any) FloatDetail {
	value, detail := resolved(p.Client, flag, Float, fallback, in)
	return FloatDetail{value, detail}
}

// ObjectEvaluation resolves a flag of kind object.
func (p Provider) ObjectEvaluation(_ context.Context, flag string, fallback any, in map[string]any) InterfaceDetail {
	value, detail := resolved(p.Client, flag, Object, fallback, in)
	return InterfaceDetail{value, detail}
}

// resolved is the value of a flag now, or the fallback, with its detail.
func resolved[T any](c *Client, flag string, kind Kind, fallback T, in map[string]any) (T, Detail) {
	text := []byte("{}")
	if len(in) > 0 {
		var err error
		if text, err = json.Marshal(in); err != nil {
			return fallback, failed("INVALID_CONTEXT", err)
		}
	}
	found, err := c.Resolve(flag, kind, text, uint64(time.Now().Unix()))
	if err != nil {
		return fallback, failed(codeOf(err), err)
	}
	if !found.HasVariant {
		return fallback, Detail{Reason: found.Reason, ErrorCode: found.Code}
	}
	value := fallback
	if err := json.Unmarshal(found.Value, &value); err != nil {
		return fallback, failed("GENERAL", err)
	}
	return value, Detail{Reason: found.Reason, Variant: found.Variant}
}

func failed(code string, err error) Detail {
	return Detail{Reason: "ERROR", ErrorCode: code, ErrorMessage: err.Error()}
}

func codeOf(err error) string {
	var refused Refused
	if errors.As(err, &refused) && refused > contexts && refused < contexts+10 {
		return "INVALID_CONTEXT"
	}
	return "GENERAL"
}
