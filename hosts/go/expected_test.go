package wormweekly

import (
	"errors"
	"strings"
	"testing"
)

// Only values of different places go together, so that no combination tells whether values were exchanged.
const transfersCatalogue = `format = 2
[[meter]]
name = 'shop'
[[meter.instrument]]
name = 'transfers'
kind = 'counter'
unit = 'EUR'
range = [1, 100]
key = [{ name = 'from', values = ['a', 'b'] }, { name = 'to', values = ['a', 'b'] }, { name = 'count', values = [1, true], optional = true }]
allowed = [[1, 2, 0], [2, 1, 0], [2, 1, 1]]
[[recorder]]
name = 'main'
budget = [{ instrument = 0, amount = 5 }]
`

var transferKeys = []ExpectedKey{
	{Name: "from", Values: []any{"a", "b"}},
	{Name: "to", Values: []any{"a", "b"}},
	{Name: "count", Optional: true, Values: []any{1, true}},
}

func expectTransfers(catalogue string) (*Metrics, *Instrument, error) {
	metrics, err := Open(catalogue, "format = 1\n[[reader]]\nname = 'all'\n")
	if err != nil {
		return nil, nil, err
	}
	transfers, err := metrics.Expect("shop", "transfers", Counter, "EUR", transferKeys...)
	return metrics, transfers, err
}

func TestWhatAProgramWasMadeForIsFound(t *testing.T) {
	later := map[string]string{
		"amount = 5":                                  "amount = 6",
		"'from', values = ['a', 'b']":                 "'from', values = ['a', 'b', 'c']",
		"values = [1, true], optional = true }]":      "values = [1, true, 2], optional = true }]",
		"allowed = [[1, 2, 0], [2, 1, 0], [2, 1, 1]]": "spare = 2",
	}
	for from, to := range later {
		if _, transfers, err := expectTransfers(strings.Replace(transfersCatalogue, from, to, 1)); err != nil || transfers.Number() != 0 {
			t.Errorf("%s: %v", to, err)
		}
	}
}

func TestWhatMeansSomethingElseIsTold(t *testing.T) {
	cases := []struct{ from, to, words string }{
		{"'from', values = ['a', 'b']", "'from', values = ['b', 'a']", `shop/transfers: key "from" has no value "a" at place 1`},
		{"'to', values = ['a', 'b']", "'to', values = ['ab', 'b']", `shop/transfers: key "to" has no value "a" at place 1`},
		{"[1, true]", "[1, 'true']", `shop/transfers: key "count" has no value true at place 2`},
		{"'EUR'", "'USD'", `shop/transfers: its unit is "USD"`},
		{"'counter'", "'up_down_counter'", "shop/transfers: it is an up-down counter"},
	}
	for _, one := range cases {
		_, _, err := expectTransfers(strings.Replace(transfersCatalogue, one.from, one.to, 1))
		if !errors.Is(err, ErrMeaning) || !strings.HasSuffix(err.Error(), one.words) {
			t.Errorf("%v, and not %s", err, one.words)
		}
	}
	metrics, _, err := expectTransfers(transfersCatalogue)
	done(t, err)
	long := strings.Repeat("x", 5000)
	_, err = metrics.Expect("shop", "transfers", Counter, "EUR", ExpectedKey{Name: "from", Values: []any{long}})
	if !errors.Is(err, ErrMeaning) || !strings.HasSuffix(err.Error(), long+`" at place 1`) {
		t.Error(err)
	}
	for _, keys := range [][]ExpectedKey{{{Name: "from"}}, {{Name: "from", Values: []any{1.5}}}} {
		if _, err := metrics.Expect("shop", "transfers", Counter, "EUR", keys...); !errors.Is(err, ErrMeaning) {
			t.Errorf("%v for %v", err, keys)
		}
	}
	if _, err := metrics.Expect("shop", "orders", Counter, "EUR"); !errors.Is(err, ErrUnknownName) {
		t.Error(err)
	}
}

func TestASetKeyOutsideWhatIsAllowedIsRefused(t *testing.T) {
	metrics, transfers, err := expectTransfers(transfersCatalogue)
	done(t, err)
	main := metrics.Recorders[0]
	done(t, main.AddSet(transfers, [8]uint16{1, 2}, 7))
	if err := main.AddSet(transfers, [8]uint16{1, 1}, 1); !errors.Is(err, ErrCombination) {
		t.Error(err)
	}
	if err := main.AddSet(transfers, [8]uint16{1}, 1); !errors.Is(err, ErrUnknownValue) {
		t.Error(err)
	}
	if totals := totalsOf(t, metrics); totals[0].Count != 1 {
		t.Error(totals)
	}
}
