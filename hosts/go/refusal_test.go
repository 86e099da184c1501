package wormweekly

import (
	"errors"
	"math"
	"strconv"
	"strings"
	"testing"
)

func TestRecordingsAreRefusedByName(t *testing.T) {
	metrics, first, _, requests := opened(t)
	with := func(more ...Attr) []Attr { return append(append([]Attr{}, home...), more...) }
	cases := []struct {
		attributes []Attr
		value      int64
		want       *Refusal
	}{
		{with(home[0]), 1, ErrDuplicateKey},
		{with(String("colour", "red")), 1, ErrUnknownKey},
		{[]Attr{String("route", "/admin"), Int("status", 200)}, 1, ErrUnknownValue},
		{[]Attr{String("route", "/"), String("status", "200")}, 1, ErrUnknownValue},
		{[]Attr{String("route", "/"), Bool("status", true)}, 1, ErrUnknownValue},
		{with(Int("cached", 1)), 1, ErrUnknownValue},
		{home[:1], 1, ErrMissingKey},
		{nil, 1, ErrMissingKey},
		{[]Attr{String("route", "\xff"), Int("status", 200)}, 1, ErrNoText},
		{[]Attr{String(strings.Repeat("x", 100_000), "")}, 1, ErrUnknownKey},
		{make([]Attr, 100), 1, ErrDuplicateKey},
		{home, 0, ErrRange},
		{home, 101, ErrRange},
		{home, math.MaxInt64, ErrRange},
		{home, math.MinInt64, ErrRange},
	}
	for _, one := range cases {
		if err := first.Record(requests, one.value, one.attributes...); !errors.Is(err, one.want) {
			t.Errorf("%.60v, %d: %v, and not %v", one.attributes, one.value, err, one.want)
		}
		if errors.Is(one.want, ErrAttributes) {
			if _, err := requests.Bind(one.attributes...); !errors.Is(err, one.want) || !errors.Is(err, ErrAttributes) {
				t.Errorf("bound %.60v: %v, and not %v", one.attributes, err, one.want)
			}
		}
	}
	if count := totalsOf(t, metrics)[0].Count; count != 0 {
		t.Errorf("%d were counted", count)
	}
}

func TestRefusalsTellWhatTheyAreAbout(t *testing.T) {
	_, first, _, requests := opened(t)
	many := make([]Attr, 100_000)
	for at := range many {
		many[at] = String(strconv.Itoa(at), "")
	}
	cases := []struct {
		attributes []Attr
		value      int64
		want       string
	}{
		{[]Attr{String("colour", "red")}, 1, `requests: key "colour" is not declared`},
		{[]Attr{String("route", "/admin"), Int("status", 200)}, 1, `requests: key "route" has no value "/admin"`},
		{[]Attr{String("route", "\x1b[2J"), Int("status", 200)}, 1, `requests: key "route" has no value "\u{1b}[2J"`},
		{home[:1], 1, `requests: key "status" is missing`},
		{home, 0, "requests: value 0 is not in the range from 1 to 100"},
		{many, 1, `requests: key "0" is not declared`},
	}
	for _, one := range cases {
		err := first.Record(requests, one.value, one.attributes...)
		if err == nil || !strings.HasSuffix(err.Error(), ": "+one.want) {
			t.Errorf("%v, and not %s", err, one.want)
		}
	}
	if _, err := requests.Bind(home[0]); err == nil || !strings.HasSuffix(err.Error(), cases[3].want) {
		t.Errorf("%v, and not %s", err, cases[3].want)
	}
}

func TestRemarksAndFaultsHavePlaces(t *testing.T) {
	remarks, err := Lint(testCatalogue, "format = 1\n")
	if err != nil || len(remarks) != 1 || remarks[0] != "config:1:1: there is no reader, so nothing is collected" {
		t.Errorf("%q, %v", remarks, err)
	}
	_, linted := Lint("format = 4\n", testConfig)
	_, opened := Open("format = 4\n", testConfig)
	for _, err := range []error{linted, opened} {
		const want = ": catalogue:1:1: catalogue format 4 is not supported (only 1 to 3)"
		if !errors.Is(err, ErrFault) || !strings.HasSuffix(err.Error(), want) {
			t.Errorf("%v, and not %s", err, want)
		}
	}
}

// Each misuse with the refusal that tells it.
func TestMisuseIsRefusedByName(t *testing.T) {
	cases := map[string]struct {
		misuse func(t *testing.T) error
		want   *Refusal
	}{
		"past the budget": {func(t *testing.T) error {
			_, first, _, requests := opened(t)
			for made := 0; made < 5; made++ {
				done(t, first.Record(requests, 1, home...))
			}
			return first.Record(requests, 1, home...)
		}, ErrBudget},
		"past the spare budget": {func(t *testing.T) error {
			metrics, first, _, _ := opened(t)
			return must(metrics.Instrument("temperature"))(t).Grant(first, 3)
		}, ErrNoSpare},
		"closed": {func(t *testing.T) error {
			_, first, _, requests := opened(t)
			done(t, requests.Close())
			return first.Record(requests, 1, home...)
		}, ErrClosed},
		"closed twice": {func(t *testing.T) error {
			_, _, _, requests := opened(t)
			done(t, requests.Close())
			return requests.Close()
		}, ErrClosed},
		"a recording of another run": {func(t *testing.T) error {
			_, first, _, _ := opened(t)
			_, _, _, theirs := opened(t)
			return first.Record(theirs, 1, home...)
		}, ErrStranger},
		"a bound set of another run": {func(t *testing.T) error {
			_, first, _, _ := opened(t)
			_, _, _, theirs := opened(t)
			return first.Add(must(theirs.Bind(home...))(t), 1)
		}, ErrStranger},
		"a list of another run": {func(t *testing.T) error {
			_, first, _, _ := opened(t)
			_, _, _, theirs := opened(t)
			return first.AddAll([]Item{{must(theirs.Bind(home...))(t), 1}})
		}, ErrStranger},
		"a grant of another run": {func(t *testing.T) error {
			_, first, _, _ := opened(t)
			_, _, _, theirs := opened(t)
			return theirs.Grant(first, 1)
		}, ErrStranger},
		"a collection of another run": {func(t *testing.T) error {
			metrics, _, _, _ := opened(t)
			_, _, _, theirs := opened(t)
			_, err := metrics.Readers[0].Collect(theirs, at(1))
			return err
		}, ErrStranger},
		"no instrument": {func(t *testing.T) error {
			_, first, _, _ := opened(t)
			return first.Record(nil, 1)
		}, ErrUnknownInstrument},
		"no bound set": {func(t *testing.T) error {
			_, first, _, _ := opened(t)
			return first.Add(Bound{}, 1)
		}, ErrUnknownInstrument},
		"no batch": {func(t *testing.T) error {
			metrics, _, _, _ := opened(t)
			_, err := metrics.Readers[0].Last()
			return err
		}, ErrNoBatch},
		"no such name": {func(t *testing.T) error {
			metrics, _, _, _ := opened(t)
			_, err := metrics.Instrument("nothing")
			return err
		}, ErrUnknownName},
		"no catalogue": {func(*testing.T) error {
			_, err := Open("", testConfig)
			return err
		}, ErrFault},
		"no config": {func(*testing.T) error {
			_, err := Open(testCatalogue, "format = 9\n")
			return err
		}, ErrFault},
		"no certificate": {func(*testing.T) error {
			_, err := Open(testCatalogue, testConfig, Certificate(""))
			return err
		}, ErrFault},
	}
	for name, one := range cases {
		t.Run(name, func(t *testing.T) {
			if err := one.misuse(t); !errors.Is(err, one.want) {
				t.Errorf("%v, and not %v", err, one.want)
			}
		})
	}
}

func TestASetKeyThatIsWrittenIsThatOfAttributes(t *testing.T) {
	metrics, _, second, requests := opened(t)
	for _, recorder := range []*Recorder{second, nil} {
		done(t, recorder.AddSet(requests, [8]uint16{2, 1}, 7))
		done(t, recorder.AddSet(requests, [8]uint16{2, 1, 2}, 1))
		for _, wrong := range [][8]uint16{{0, 1}, {3, 1}, {2, 1, 3}, {2, 1, 0, 1}} {
			if err := recorder.AddSet(requests, wrong, 1); !errors.Is(err, ErrUnknownValue) {
				t.Errorf("%v for %v", err, wrong)
			}
		}
	}
	if refused := requests.Refused()[ErrUnknownValue.Name]; refused != 4 {
		t.Errorf("%d were counted as refused by any recorder", refused)
	}
	if bound := must(requests.Bind(String("route", "/cart"), Int("status", 200)))(t); bound.set != setKeyOf([8]uint16{2, 1}) {
		t.Error(bound.set)
	}
	if count := totalsOf(t, metrics)[0].Count; count != 4 {
		t.Errorf("%d were counted", count)
	}
}

func TestListsEndAtARefusal(t *testing.T) {
	metrics, _, second, requests := opened(t)
	bound := must(requests.Bind(home...))(t)
	away := must(must(metrics.Instrument("duration"))(t).Bind(home[0]))(t)
	done(t, second.AddAll(nil))
	done(t, second.AddAll([]Item{{bound, 1}, {bound, 2}}))
	cases := []struct {
		items []Item
		want  *Refusal
		made  int
	}{
		{[]Item{{bound, 1}, {bound, 2}, {bound, 101}, {bound, 1}}, ErrRange, 2},
		{[]Item{{bound, 1}, {away, 1}, {bound, 1}}, ErrUnknownInstrument, 1},
		{[]Item{{bound, 0}}, ErrRange, 0},
	}
	for _, one := range cases {
		var list *ListError
		err := second.AddAll(one.items)
		if !errors.As(err, &list) || !errors.Is(err, one.want) || list.Made != one.made {
			t.Errorf("%v, and not %v after %d", err, one.want, one.made)
		}
	}
	if count := totalsOf(t, metrics)[0].Count; count != 5 {
		t.Errorf("%d were counted", count)
	}
}

func TestResourcesAreRefusedByName(t *testing.T) {
	metrics, first, _, requests := opened(t)
	done(t, first.Record(requests, 1, home...))
	reader := must(metrics.Reader("new"))(t)
	many := make([]Attr, 65)
	for number := range many {
		many[number] = Int(strings.Repeat("x", number+1), 1)
	}
	cases := []struct {
		resource []Attr
		want     *Refusal
	}{
		{many, ErrTooMany},
		{[]Attr{String("", "shop")}, ErrEmptyKey},
		{[]Attr{String("a", "1"), String("a", "2")}, ErrDuplicateKey},
		{[]Attr{String("a", "\xff")}, ErrNoText},
	}
	for _, one := range cases {
		if _, err := reader.OTLP(requests, at(1), one.resource...); !errors.Is(err, one.want) {
			t.Errorf("%v, and not %v", err, one.want)
		}
	}
	if got := must(reader.Collect(requests, at(2)))(t).Streams[0].Points[0].Value; got != Sum(1) {
		t.Errorf("the window has %v", got)
	}
}

func TestARecorderAsks(t *testing.T) {
	metrics, first, _, _ := opened(t)
	temperature := must(metrics.Instrument("temperature"))(t)
	done(t, first.Record(temperature, 20))
	if err := first.Ask(temperature, 3); !errors.Is(err, ErrNoSpare) {
		t.Error(err)
	}
	done(t, first.Ask(temperature, 2))
	if got := must(first.Budget(temperature))(t); got != (Budget{Declared: 1, Granted: 2, Spent: 1, Left: 2}) {
		t.Errorf("%+v", got)
	}
	if got := must(temperature.Spare())(t); got != (Spare{Declared: 2, Granted: 2}) {
		t.Errorf("%+v", got)
	}
}

func TestAGrantIsRecorded(t *testing.T) {
	metrics, first, _, _ := opened(t)
	temperature := must(metrics.Instrument("temperature"))(t)
	done(t, temperature.Grant(first, 2))
	for made := 0; made < 3; made++ {
		done(t, first.Record(temperature, 20))
	}
	if err := first.Record(temperature, 20); !errors.Is(err, ErrBudget) {
		t.Error(err)
	}
}

func TestARecorderIsOneGoroutines(t *testing.T) {
	metrics, first, _, requests := opened(t)
	bound := must(requests.Bind(home...))(t)
	first.takeAs(isOwn) // as another one does in its recording
	calls := []func() error{
		func() error { return first.Record(requests, 1, home...) },
		func() error { return first.Add(bound, 1) },
		func() error { return first.AddAll([]Item{{bound, 1}}) },
	}
	for _, call := range calls {
		if err := call(); !errors.Is(err, ErrInUse) {
			t.Error(err)
		}
	}
	first.giveBack()
	done(t, first.Add(bound, 1))
	if count := totalsOf(t, metrics)[0].Count; count != 1 {
		t.Errorf("%d were counted", count)
	}
}
