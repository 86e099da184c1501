package wormweekly

import (
	"testing"
	"time"
)

const testCatalogue = `format = 2
[[meter]]
name = 'shop'
version = '1.0'
[[meter.instrument]]
name = 'requests'
kind = 'counter'
range = [1, 100]
key = [
    { name = 'route', values = ['/', '/cart'] },
    { name = 'status', values = [200, 404] },
    { name = 'cached', values = [true, false], optional = true },
]
[[meter.instrument]]
name = 'in_flight'
kind = 'up_down_counter'
range = [-1, 1]
[[meter.instrument]]
name = 'duration'
kind = 'histogram'
unit = 'ms'
range = [0, 60000]
boundaries = [10, 100, 1000]
key = [{ name = 'route', values = ['/', '/cart'] }]
[[meter.instrument]]
name = 'temperature'
kind = 'gauge'
range = [-50, 50]
spare = 2
[[recorder]]
name = 'first'
budget = [
    { instrument = 0, amount = 5 },
    { instrument = 1, amount = 100 },
    { instrument = 2, amount = 1000 },
    { instrument = 3, amount = 1 },
]
[[recorder]]
name = 'second'
budget = [
    { instrument = 0, amount = 200000 },
    { instrument = 1, amount = 100 },
    { instrument = 2, amount = 1000 },
    { instrument = 3, amount = 1 },
]
`

const testConfig = `format = 1
[[reader]]
name = 'all'
[[reader]]
name = 'new'
temporality = { counter = 'delta', histogram = 'delta' }
`

var home = []Attr{String("route", "/"), Int("status", 200)}

func at(nanosecond int64) time.Time { return time.Unix(0, nanosecond) }

func must[T any](made T, err error) func(*testing.T) T {
	return func(t *testing.T) T {
		t.Helper()
		if err != nil {
			t.Fatal(err)
		}
		return made
	}
}

func done(t *testing.T, err error) {
	t.Helper()
	if err != nil {
		t.Fatal(err)
	}
}

// Opens a run since the time 0, with its recorders and the requests.
func opened(t *testing.T) (*Metrics, *Recorder, *Recorder, *Instrument) {
	t.Helper()
	metrics := must(Open(testCatalogue, testConfig, Since(at(0))))(t)
	requests := must(metrics.Instrument("requests"))(t)
	return metrics, metrics.Recorders[0], metrics.Recorders[1], requests
}

func totalsOf(t *testing.T, metrics *Metrics) []Total {
	t.Helper()
	return must(metrics.Settle())(t)
}
