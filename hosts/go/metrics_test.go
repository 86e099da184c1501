package wormweekly

import (
	"bytes"
	"context"
	"encoding/json"
	"errors"
	"math"
	"math/big"
	"os"
	"reflect"
	"runtime"
	"strings"
	"sync"
	"testing"
	"time"
)

func TestNames(t *testing.T) {
	metrics, first, second, _ := opened(t)
	var names []string
	for number, instrument := range metrics.Instruments {
		names = append(names, instrument.Meter()+"/"+instrument.Name())
		if instrument.Number() != number {
			t.Errorf("%s has the number %d", instrument.Name(), instrument.Number())
		}
	}
	if got := strings.Join(names, " "); got != "shop/requests shop/in_flight shop/duration shop/temperature" {
		t.Error(got)
	}
	if first.Name() != "first" || second.Name() != "second" || second.Number() != 1 || metrics.Readers[1].Name() != "new" {
		t.Error("other names")
	}
	if metrics.Warnings != "" {
		t.Error(metrics.Warnings)
	}
}

func TestABatch(t *testing.T) {
	metrics, _, second, requests := opened(t)
	all := metrics.Readers[0]
	for _, value := range []int64{1, 2, 3} {
		done(t, second.Record(requests, value, Bool("cached", true), home[1], home[0]))
	}
	got := must(all.Collect(requests, at(10)))(t)
	want := Batch{Instrument: 0, Start: 0, Time: 10, Streams: []Stream{{
		Name: "requests", Meter: "shop", Version: "1.0", Kind: Counter, Boundaries: []int64{},
		Points: []Point{{Attributes: []Attr{home[0], home[1], Bool("cached", true)}, Value: Sum(6)}},
	}}}
	if !reflect.DeepEqual(got, want) {
		t.Errorf("%+v, and not %+v", got, want)
	}
	if last := must(all.Last())(t); !reflect.DeepEqual(last, want) {
		t.Errorf("%+v, and not %+v", last, want)
	}
	if text := must(all.Text(requests, at(10)))(t); !strings.HasPrefix(text, "collected 10 1\n") {
		t.Error(text)
	}
}

func TestValues(t *testing.T) {
	metrics, _, second, _ := opened(t)
	cases := []struct {
		name       string
		values     []int64
		attributes []Attr
		want       any
	}{
		{"in_flight", []int64{1, 1, -1}, nil, Sum(1)},
		{"temperature", []int64{-7}, nil, Last(-7)},
		{"duration", []int64{0, 10, 11, 5000}, home[:1], Buckets{4, []uint64{2, 1, 0, 1}, true, 5021, 0, 5000}},
	}
	for _, one := range cases {
		instrument := must(metrics.Instrument(one.name))(t)
		for _, value := range one.values {
			done(t, second.Record(instrument, value, one.attributes...))
		}
		batch := must(metrics.Readers[0].Collect(instrument, at(1)))(t)
		if got := batch.Streams[0].Points[0].Value; !reflect.DeepEqual(got, one.want) {
			t.Errorf("%s: %v, and not %v", one.name, got, one.want)
		}
	}
}

func TestDurationsAboveTheRangeAreClampedAndCounted(t *testing.T) {
	metrics, first, _, _ := opened(t)
	duration := must(metrics.Instrument("duration"))(t)
	route := must(duration.Bind(home[0]))(t)
	done(t, first.AddDuration(route, time.Minute, time.Millisecond))
	if duration.Clamped() != 0 {
		t.Error("a minute is in the range")
	}
	done(t, first.AddDuration(route, time.Minute+time.Millisecond, time.Millisecond))
	done(t, first.AddDuration(route, math.MaxInt64, time.Nanosecond))
	want := Buckets{3, []uint64{0, 0, 0, 3}, true, 180000, 60000, 60000}
	batch := must(metrics.Readers[0].Collect(duration, at(1)))(t)
	if got := batch.Streams[0].Points[0].Value; !reflect.DeepEqual(got, want) || duration.Clamped() != 2 {
		t.Errorf("%v, and %d clamped", got, duration.Clamped())
	}
	done(t, duration.Close())
	for err, wanted := range map[error]error{
		first.AddDuration(route, time.Hour, time.Nanosecond): ErrClosed,
		first.AddDuration(route, time.Hour, 0):               ErrUnit,
		first.AddDuration(Bound{}, time.Hour, time.Second):   ErrUnknownInstrument,
	} {
		if !errors.Is(err, wanted) {
			t.Errorf("%v, and not %v", err, wanted)
		}
	}
	if duration.Clamped() != 2 {
		t.Error("what is refused is counted as clamped")
	}
}

func TestWindows(t *testing.T) {
	metrics, _, second, requests := opened(t)
	want := map[string][]Sum{"all": {3, 8}, "new": {3, 5}}
	for step, value := range []int64{3, 5} {
		done(t, second.Record(requests, value, home...))
		for _, reader := range metrics.Readers {
			stream := must(reader.Collect(requests, at(int64(step))))(t).Streams[0]
			if got := stream.Points[0].Value; got != want[reader.Name()][step] || stream.IsDelta != (reader.Name() == "new") {
				t.Errorf("%s: %v", reader.Name(), got)
			}
		}
	}
}

func TestOTLP(t *testing.T) {
	metrics, _, second, requests := opened(t)
	all, shop := metrics.Readers[0], String("service.name", "shop")
	if got := must(all.OTLP(requests, at(10), shop))(t); len(got) != 0 {
		t.Errorf("%q", got)
	}
	done(t, second.Record(requests, 42, home...))
	var line struct {
		ResourceMetrics []struct {
			Resource     struct{ Attributes []struct{ Key string } }
			ScopeMetrics []struct {
				Metrics []struct {
					Name string
					Sum  struct {
						DataPoints []struct{ AsInt, TimeUnixNano string }
					}
				}
			}
		}
	}
	done(t, json.Unmarshal(must(all.OTLPLine(requests, at(20), shop))(t), &line))
	told := line.ResourceMetrics[0]
	metric := told.ScopeMetrics[0].Metrics[0]
	point := metric.Sum.DataPoints[0]
	if metric.Name != "requests" || point.AsInt != "42" || point.TimeUnixNano != "20" {
		t.Errorf("%+v", metric)
	}
	if len(told.Resource.Attributes) != 1 || told.Resource.Attributes[0].Key != "service.name" {
		t.Errorf("%+v", told.Resource)
	}
	message := must(all.OTLP(requests, at(30), shop))(t)
	if !bytes.Contains(message, []byte("requests")) || !bytes.Contains(message, []byte("service.name")) {
		t.Errorf("%q", message)
	}
}

func TestOneMessage(t *testing.T) {
	metrics, _, second, requests := opened(t)
	all, shop := metrics.Readers[0], String("service.name", "shop")
	if got := must(metrics.OTLP(all, at(10), shop))(t); len(got) != 0 {
		t.Errorf("%q", got)
	}
	done(t, second.Record(requests, 42, home...))
	done(t, second.Record(must(metrics.Instrument("temperature"))(t), -7))
	message := must(metrics.OTLP(all, at(20), shop))(t)
	for _, word := range []string{"service.name", "requests", "temperature"} {
		if count := bytes.Count(message, []byte(word)); count != 1 {
			t.Errorf("%s: %d in %q", word, count, message)
		}
	}
	line := must(metrics.OTLPLine(all, at(30), shop))(t)
	if count := bytes.Count(line, []byte("scopeMetrics")); count != 1 || line[len(line)-1] != '\n' {
		t.Errorf("%q", line)
	}
}

func TestNoRecorder(t *testing.T) {
	instrument := "[[meter.instrument]]\nname = 'i'\nkind = 'counter'\nrange = [0, 1]\n"
	metrics := must(Open("format = 1\n[[meter]]\nname = 'm'\n"+instrument, testConfig))(t)
	if instrument := must(metrics.Instrument("i"))(t); instrument.Meter() != "m" {
		t.Error(instrument.Meter())
	}
}

func TestTotals(t *testing.T) {
	metrics, first, second, _ := opened(t)
	inFlight := must(metrics.Instrument("in_flight"))(t)
	done(t, first.Record(inFlight, -1))
	done(t, second.Record(inFlight, -1))
	total := totalsOf(t, metrics)[1]
	if total.Count != 2 || total.Sum.Cmp(big.NewInt(-2)) != 0 {
		t.Errorf("%v", total)
	}
	if got := totalOf(1, true, 1, 2).Sum.String(); got != "-18446744073709551618" {
		t.Error(got)
	}
}

func TestARollOverBeginsAnew(t *testing.T) {
	metrics, first, _, requests := opened(t)
	bound := must(requests.Bind(home...))(t)
	for run := 0; run < 3; run++ {
		for value := int64(1); value <= 5; value++ {
			done(t, first.Add(bound, value))
		}
		if err := first.Add(bound, 1); !errors.Is(err, ErrBudget) {
			t.Fatal(err)
		}
		if run == 1 {
			done(t, requests.Close())
		}
		total := must(metrics.RollOver(time.Now()))(t).Totals[0]
		if total.Count != 5 || total.Sum.Int64() != 15 {
			t.Errorf("%v", total)
		}
	}
	batch := must(metrics.Readers[0].Collect(requests, time.Now()))(t)
	if len(batch.Streams[0].Points) != 0 || batch.Start == 0 {
		t.Errorf("%v", batch)
	}
}

func TestSeatsOutliveTheirRun(t *testing.T) {
	metrics, first, _, requests := opened(t)
	bound := must(requests.Bind(home...))(t)
	reader := metrics.Readers[0]
	metrics, requests = nil, nil
	for made := 0; made < 5; made++ {
		runtime.GC()
		done(t, first.Add(bound, 1))
	}
	if got := must(reader.Collect(bound.instrument, at(1)))(t).Streams[0].Points[0].Value; got != Sum(5) {
		t.Error(got)
	}
}

func TestAPoolLends(t *testing.T) {
	metrics, _, _, requests := opened(t)
	pool := NewPool(metrics.Recorders...)
	ctx, cancel := context.WithTimeout(context.Background(), 10*time.Millisecond)
	defer cancel()
	one, two := must(pool.Get(ctx))(t), must(pool.Get(ctx))(t)
	if _, err := pool.Get(ctx); !errors.Is(err, context.DeadlineExceeded) {
		t.Error(err)
	}
	for _, strange := range []*Recorder{nil, {}} {
		if err := pool.Put(strange); !errors.Is(err, ErrNotLent) {
			t.Error(err)
		}
	}
	done(t, pool.Put(one))
	if err := pool.Put(one); !errors.Is(err, ErrNotLent) {
		t.Error(err)
	}
	done(t, must(pool.Get(context.Background()))(t).Record(requests, 1, home...))
	done(t, pool.Put(two))
	var zero Pool
	if _, err := zero.Get(context.Background()); !errors.Is(err, ErrNoPool) {
		t.Error(err)
	}
	if err := zero.Put(one); !errors.Is(err, ErrNoPool) {
		t.Error(err)
	}
}

func TestNothingIsRefused(t *testing.T) {
	metrics, first, _, requests := opened(t)
	bound, err := requests.Bind(String("route", "/admin"), Int("status", 200))
	if err == nil || !errors.Is(first.Add(bound, 1), ErrUnknownInstrument) {
		t.Errorf("%v, %v", err, bound)
	}
	if _, err := metrics.Readers[0].Collect(nil, at(1)); !errors.Is(err, ErrUnknownInstrument) {
		t.Error(err)
	}
	if err := requests.Grant(nil, 1); !errors.Is(err, ErrUnknownRecorder) {
		t.Error(err)
	}
	if count := totalsOf(t, metrics)[0].Count; count != 0 {
		t.Errorf("%d were counted", count)
	}
}

// What is counted in can be counted out: of three recordings that are left, one piece of work has two.
func TestWorkIsCountedInAndOut(t *testing.T) {
	metrics, first, _, _ := opened(t)
	inFlight := must(metrics.Instrument("in_flight"))(t)
	bound := must(inFlight.Bind())(t)
	for left := must(first.Budget(inFlight))(t).Left; left > 3; left-- {
		done(t, first.Add(bound, 0))
	}
	out := must(first.InFlight(bound))(t)
	second, err := first.InFlight(bound)
	if !errors.Is(err, ErrBudget) {
		t.Error(err)
	}
	done(t, second())
	done(t, out())
	if total := totalsOf(t, metrics)[inFlight.Number()]; total.Sum.Sign() != 0 {
		t.Error(total)
	}
}

// All calls at once: no recording is lost, none counted twice.
func TestAllAtOnce(t *testing.T) {
	metrics, _, second, requests := opened(t)
	bound := must(requests.Bind(home...))(t)
	const made = 20_000
	var counted uint64
	var waiting sync.WaitGroup
	ended := make(chan struct{})
	go func() {
		defer close(ended)
		for number := 0; number < made; number++ {
			if err := second.Add(bound, 1); err != nil {
				t.Error(err)
			}
		}
	}()
	again := func(call func() error) {
		waiting.Add(1)
		go func() {
			defer waiting.Done()
			for {
				if err := call(); err != nil {
					t.Error(err)
				}
				select {
				case <-ended:
					return
				default:
					time.Sleep(time.Millisecond)
				}
			}
		}()
	}
	again(func() error {
		ended, err := metrics.RollOver(time.Now())
		if err == nil {
			counted += ended.Totals[0].Count
		}
		return err
	})
	again(func() error { _, err := requests.Bind(home...); return err })
	again(func() error { _, err := metrics.Settle(); return err })
	again(func() error { _, err := metrics.Readers[0].Collect(requests, time.Now()); return err })
	again(func() error { _, err := metrics.Readers[1].Text(requests, time.Now()); return err })
	again(func() error { _, err := metrics.Readers[1].Last(); return ignoreNoBatch(err) })
	waiting.Wait()
	if counted += totalsOf(t, metrics)[0].Count; counted != made {
		t.Errorf("%d were counted", counted)
	}
}

func ignoreNoBatch(err error) error {
	if errors.Is(err, ErrNoBatch) {
		return nil
	}
	return err
}

func TestClientsChooseAFormat(t *testing.T) {
	table, err := os.ReadFile("../accept.txt")
	if err != nil {
		t.Skip(err) // it is beside the hosts, and not in the module
	}
	for _, line := range strings.Split(strings.TrimSpace(string(table)), "\n")[1:] {
		word, accept, _ := strings.Cut(line, " ")
		if word == "gzip" || word == "plain" {
			if got := AcceptsGzip(accept); got != (word == "gzip") {
				t.Errorf("%v for %q", got, accept)
			}
		} else if got := Accepted(accept); (got == OpenMetrics) != (word == "openmetrics") {
			t.Errorf("%v for %q", got, accept)
		}
	}
}
