package wormweekly

import "fmt"

// An ExpectedKey is a key of an instrument, as a program was made for it: its name, whether a recording may leave it
// out, and its values in order, at least one, each a string, an int, an int64 or a bool. The number of each in a set key
// is its place, from 1.
type ExpectedKey struct {
	Name     string
	Optional bool
	Values   []any
}

// Expect answers the instrument of a meter and a name, where it means what a program was made for, as one that is made
// from a catalogue asks once: it has this kind and unit; its first keys are these in order, each optional exactly where
// that is said; the values of each begin with these; and each further key may be left out. So a set key that is written
// for them (Recorder.AddSet) names the same attributes. Where it means something else, the error wraps ErrMeaning and
// tells the first difference; ErrUnknownName is wrapped where there is not one of this meter and name.
func (metrics *Metrics) Expect(meter, name string, kind Kind, unit string, keys ...ExpectedKey) (*Instrument, error) {
	var found []*Instrument
	for _, one := range metrics.Instruments {
		if one.meter == meter && one.name == name {
			found = append(found, one)
		}
	}
	if len(found) != 1 {
		return nil, fmt.Errorf("%w: %q", ErrUnknownName, meter+"/"+name)
	}
	declared := []Attr{String("", meter), String("", name), String("", unit)}
	for _, key := range keys {
		if len(key.Values) == 0 {
			return nil, fmt.Errorf("%w: key %q is asked for without a value", ErrMeaning, key.Name)
		}
		for _, value := range key.Values {
			attribute, err := attrOf(key.Name, value)
			if err != nil {
				return nil, err
			}
			declared = append(declared, attribute)
		}
	}
	if err := found[0].means(kind, declared, flagsOf(keys)); err != nil {
		return nil, err
	}
	return found[0], nil
}

func (instrument *Instrument) means(kind Kind, declared []Attr, optional uint32) error {
	if len(instrument.run.recorders) == 0 {
		return errorOn(instrument, answerUnknownRecorder)
	}
	answer, fault := expect(instrument, kind, declared, optional)
	if answer == answerFault {
		return fmt.Errorf("%w: %s", ErrMeaning, fault)
	}
	return errorOn(instrument, answer)
}

// A bit for each key that may be left out. Of more than 32 keys those behind are none of any instrument.
func flagsOf(keys []ExpectedKey) (flags uint32) {
	for at, key := range keys[:min(len(keys), 32)] {
		if key.Optional {
			flags |= 1 << at
		}
	}
	return flags
}

func attrOf(key string, value any) (Attr, error) {
	switch value := value.(type) {
	case string:
		return String(key, value), nil
	case int:
		return Int(key, int64(value)), nil
	case int64:
		return Int(key, value), nil
	case bool:
		return Bool(key, value), nil
	default:
		return Attr{}, fmt.Errorf("%w: key %q has a value that is no string, int, int64 or bool", ErrMeaning, key)
	}
}
