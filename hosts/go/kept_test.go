package wormweekly

import (
	"errors"
	"fmt"
	"strings"
	"sync"
	"sync/atomic"
	"testing"
	"time"
)

// What is added up, what is kept one by one since no sum is in the range, a histogram, and a gauge.
const keptCatalogue = `format = 2
[[meter]]
name = 'shop'
[[meter.instrument]]
name = 'bytes'
kind = 'up_down_counter'
range = [-50, 100]
spare = 300
key = [{ name = 'route', values = ['/', '/cart', '/pay'] }]
[[meter.instrument]]
name = 'requests'
kind = 'counter'
range = [1, 1]
spare = 300
key = [{ name = 'route', values = ['/', '/cart', '/pay'] }]
[[meter.instrument]]
name = 'took'
kind = 'histogram'
range = [0, 1000]
boundaries = [10, 100]
spare = 300
key = [{ name = 'route', values = ['/', '/cart', '/pay'] }]
[[meter.instrument]]
name = 'level'
kind = 'gauge'
range = [0, 1000]
spare = 300
`

const keptRecorder = `[[recorder]]
name = '%d'
budget = [{ instrument = 0, amount = %d }, { instrument = 1, amount = %d }, { instrument = 2, amount = %d }, { instrument = 3, amount = %d }]
`

func openedKept(t *testing.T, recorders, amount int) *Metrics {
	t.Helper()
	catalogue := keptCatalogue
	for number := 0; number < recorders; number++ {
		catalogue += fmt.Sprintf(keptRecorder, number, amount, amount, amount, amount)
	}
	config := strings.Replace(testConfig, "{ counter", "{ up_down_counter = 'delta', counter", 1)
	return must(Open(catalogue, config, Since(at(0))))(t)
}

func boundsOf(t *testing.T, metrics *Metrics) (bounds [3][3]Bound) {
	t.Helper()
	for number := range bounds {
		for at, route := range []string{"/", "/cart", "/pay"} {
			bounds[number][at] = must(metrics.Instruments[number].Bind(String("route", route)))(t)
		}
	}
	return bounds
}

// Counts and sums of each instrument, as they were accepted, settled or collected.
type tally [3]struct{ count, sum int64 }

func (own *tally) add(number int, count, sum int64) {
	atomic.AddInt64(&own[number].count, count)
	atomic.AddInt64(&own[number].sum, sum)
}

func (own *tally) settle(totals []Total) {
	for number := range own {
		own.add(number, int64(totals[number].Count), totals[number].Sum.Int64())
	}
}

// Adds what a delta reader is told; sums alone of what is no histogram.
func (own *tally) collect(t *testing.T, metrics *Metrics) {
	for number := range own {
		batch := must(metrics.Readers[1].Collect(metrics.Instruments[number], time.Now()))(t)
		for _, point := range batch.Streams[0].Points {
			switch value := point.Value.(type) {
			case Sum:
				own.add(number, 0, int64(value))
			case Buckets:
				own.add(number, int64(value.Count), value.Sum)
			}
		}
	}
}

// A value of the range of an instrument.
func valueOf(number, seed int) int64 {
	return []int64{int64(seed%40) - 20, 1, int64(seed % 200)}[number]
}

// Records in many goroutines, while runs are collected and end and budgets run out, and compares what was accepted with
// what is settled, and with what a delta reader is told in all.
func TestWhatIsKeptIsCountedToTheLastOne(t *testing.T) {
	metrics := openedKept(t, 4, 200)
	bounds := boundsOf(t, metrics)
	var accepted, settled, collected tally
	var refused uint64
	var seeds int64
	record := func(number, made int, value int64) error {
		if made%100 == 0 {
			return metrics.Instruments[number].TryAdd(value, String("route", "/"))
		}
		return bounds[number][made/3%3].TryAdd(value)
	}
	work := func() {
		seed := int(atomic.AddInt64(&seeds, 1))
		for made := 0; made < 6000; made++ {
			number := (made + seed) % 3
			value := valueOf(number, made*7+seed)
			switch err := record(number, made, value); {
			case err == nil:
				accepted.add(number, 1, value)
			case errors.Is(err, ErrBudget):
				atomic.AddUint64(&refused, 1)
			default:
				t.Error(err)
			}
			if made%50 == 0 {
				time.Sleep(time.Millisecond)
			}
		}
	}
	over, rolls := make(chan struct{}), 0
	go func() {
		defer close(over)
		runAll(16, work)
	}()
	for isOver := false; !isOver; rolls++ {
		select {
		case <-over:
			isOver = true
		case <-time.After(5 * time.Millisecond):
		}
		collected.collect(t, metrics)
		ended := must(metrics.RollOver(time.Now()))(t)
		settled.settle(ended.Totals)
		collected.collect(t, ended.Metrics)
		equal(t, totalsOf(t, ended.Metrics), ended.Totals)
	}
	equal(t, settled, accepted)
	for number := range collected {
		equal(t, collected[number].sum, accepted[number].sum)
		refused -= metrics.Instruments[number].Refused()["Budget"]
	}
	equal(t, collected[2].count, accepted[2].count)
	equal(t, refused, uint64(0))
	t.Log(rolls, "runs", accepted)
}

func TestSumsAreInTheRange(t *testing.T) {
	metrics := openedKept(t, 1, 4)
	bytes := boundsOf(t, metrics)[0]
	for _, value := range []int64{60, 40, 1, -1, -50, -1, 100, 1} {
		bytes[0].Add(value)
	}
	// 60 + 40; 1 - 1 - 50; -1 + 100 + 1
	equal(t, must(metrics.Recorders[0].Budget(metrics.Instruments[0]))(t).Spent, uint64(3))
	bytes[1].Add(7)
	total := totalsOf(t, metrics)[0]
	equal(t, fmt.Sprint(total.Count, total.Sum), "9 157")
	point := must(metrics.Readers[0].Collect(metrics.Instruments[0], at(1)))(t).Streams[0].Points[0]
	equal(t, point.Value, Sum(150))
	for _, value := range []int64{101, -51} {
		if err := bytes[0].TryAdd(value); !errors.Is(err, ErrRange) {
			t.Error(err)
		}
	}
}

func TestWhatIsKeptIsReservedAndNoMore(t *testing.T) {
	metrics := openedKept(t, 2, 70)
	requests, bound := metrics.Instruments[1], boundsOf(t, metrics)[1][0]
	for made := 0; made < 500; made++ {
		bound.Add(1)
	}
	equal(t, requests.Refused(), map[string]uint64{"Budget": 60}) // of two budgets and what is spare
	equal(t, must(metrics.PartLeft())(t), 0.0)
	equal(t, totalsOf(t, metrics)[1].Count, uint64(440))
}

func TestWhatIsKeptIsMadeBeforeAnInstrumentCloses(t *testing.T) {
	metrics := openedKept(t, 2, 1000)
	bounds := boundsOf(t, metrics)
	runAll(4, func() {
		for made := 0; made < 20; made++ {
			bounds[2][0].Add(5)
		}
	})
	done(t, metrics.Instruments[2].Close())
	if err := bounds[2][0].TryAdd(5); !errors.Is(err, ErrClosed) {
		t.Error(err)
	}
	equal(t, totalsOf(t, metrics)[2].Count, uint64(80))
	must(metrics.RollOver(at(1)))(t)
	done(t, bounds[2][0].TryAdd(5))
	equal(t, totalsOf(t, metrics)[2].Count, uint64(1))
}

func TestTheLastValueOfAGaugeIsTheLast(t *testing.T) {
	metrics := openedKept(t, 4, 100_000)
	level := must(metrics.Instruments[3].Bind())(t)
	for value := int64(0); value < 1000; value++ {
		runAll(1, func() { level.Record(value) })
	}
	batch := must(metrics.Readers[0].Collect(metrics.Instruments[3], at(1)))(t)
	equal(t, batch.Streams[0].Points[0].Value, Last(999))
}

// While others fill the cell that it is added to, so that it goes over from recorder to recorder.
func TestACollectionHasAllThatWasRecordedBefore(t *testing.T) {
	metrics := openedKept(t, 4, 1_000_000)
	bound := boundsOf(t, metrics)[0][0]
	var done, isOver atomic.Int64
	var working sync.WaitGroup
	for number := 0; number < 3; number++ {
		working.Add(1)
		go func() {
			defer working.Done()
			for isOver.Load() == 0 {
				if bound.TryAdd(1) == nil {
					done.Add(1)
				}
			}
		}()
	}
	for made := int64(1); made <= 2_000; made++ {
		equal(t, bound.TryAdd(99), error(nil))
		before := done.Load() + 99*made
		batch := must(metrics.Readers[0].Collect(metrics.Instruments[0], time.Now()))(t)
		if got := int64(batch.Streams[0].Points[0].Value.(Sum)); got < before {
			t.Fatal(got, "and not", before)
		}
	}
	isOver.Store(1)
	working.Wait()
}
