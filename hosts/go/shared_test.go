package wormweekly

import (
	"errors"
	"fmt"
	"reflect"
	"strings"
	"sync"
	"sync/atomic"
	"testing"
	"time"
)

// Two recorders with few orders, and some spare ones.
var spentCatalogue = func() string {
	orders := "[[meter.instrument]]\nname = 'orders'\nkind = 'counter'\nrange = [1, 100]\nspare = 5\n"
	catalogue := strings.Replace(testCatalogue, "[[recorder]]", orders+"[[recorder]]", 1)
	return strings.ReplaceAll(catalogue, "amount = 1 },\n]", "amount = 1 },\n    { instrument = 4, amount = 3 },\n]")
}()

func openedSpent(t *testing.T) (*Metrics, *Instrument) {
	t.Helper()
	metrics := must(Open(spentCatalogue, testConfig, Since(at(0))))(t)
	return metrics, must(metrics.Instrument("orders"))(t)
}

// Runs it in so many goroutines at once.
func runAll(count int, work func()) {
	var all sync.WaitGroup
	for number := 0; number < count; number++ {
		all.Add(1)
		go func() {
			defer all.Done()
			work()
		}()
	}
	all.Wait()
}

func equal(t *testing.T, got, want any) {
	t.Helper()
	if !reflect.DeepEqual(got, want) {
		t.Errorf("%v, and not %v", got, want)
	}
}

func TestInstrumentsRecord(t *testing.T) {
	metrics, _, _, requests := opened(t)
	requests.Add(2, home...)
	must(requests.Bind(home...))(t).Add(3)
	must(metrics.Instrument("duration"))(t).Record(12, home[0])
	must(metrics.Instrument("temperature"))(t).Record(-7)
	var told []string
	for _, total := range totalsOf(t, metrics) {
		told = append(told, fmt.Sprint(total.Count, total.Sum))
	}
	equal(t, told, []string{"2 5", "0 0", "1 12", "1 -7"})
}

func TestEightGoroutinesRecordAndNothingIsLost(t *testing.T) {
	metrics, first, _, requests := opened(t)
	bound := must(requests.Bind(home...))(t)
	const times = 10_000
	runAll(8, func() {
		for made := 0; made < times; made++ {
			bound.Add(1)
			requests.Add(2, home...)
		}
	})
	total := totalsOf(t, metrics)[0]
	equal(t, fmt.Sprint(total.Count, total.Sum), fmt.Sprint(16*times, 24*times))
	equal(t, requests.Refused(), map[string]uint64{})
	// Of the first recorder all that it has, of the second the rest.
	equal(t, must(first.Budget(requests))(t).Left, uint64(0))
}

func TestASpentRecorderHandsOnAndThenTheSpareIsAsked(t *testing.T) {
	metrics, orders := openedSpent(t)
	for made := uint64(1); made <= 11; made++ {
		done(t, orders.TryAdd(1))
		granted := uint64(0)
		if made > 6 {
			granted = made - 6
		}
		equal(t, must(orders.Spare())(t).Granted, granted)
	}
	for made := 0; made < 3; made++ {
		if err := orders.TryAdd(1); !errors.Is(err, ErrBudget) {
			t.Error(err)
		}
	}
	equal(t, orders.Refused(), map[string]uint64{"Budget": 3})
	equal(t, totalsOf(t, metrics)[4].Count, uint64(11))
	must(metrics.RollOver(at(1)))(t)
	done(t, orders.TryAdd(1))
	equal(t, totalsOf(t, metrics)[4].Count, uint64(1))
}

func TestWhatGoroutinesRaceForIsMadeOrRefused(t *testing.T) {
	for round := 0; round < 50; round++ {
		metrics, orders := openedSpent(t)
		runAll(8, func() {
			orders.Add(1)
			orders.Add(1)
		})
		equal(t, totalsOf(t, metrics)[4].Count, uint64(11))
		equal(t, orders.Refused(), map[string]uint64{"Budget": 5})
	}
}

func TestWhatIsGrantedByHandIsFound(t *testing.T) {
	metrics, orders := openedSpent(t)
	for made := 0; made < 6; made++ {
		orders.Add(1)
	}
	done(t, orders.Grant(metrics.Recorders[1], 5))
	for made := 0; made < 6; made++ {
		orders.Add(1)
	}
	equal(t, totalsOf(t, metrics)[4].Count, uint64(11))
	equal(t, orders.Refused(), map[string]uint64{"Budget": 1})
}

func TestEachReasonIsCountedAndToldOnce(t *testing.T) {
	metrics, _, _, requests := opened(t)
	wrong := []Attr{String("route", "/x"), Int("status", 200)}
	requests.Add(1, wrong...)
	var told []string
	metrics.OnRefusal(func(on *Instrument, err error) { told = append(told, on.Name()+" "+err.Error()) })
	for made := 0; made < 3; made++ {
		requests.Add(1, wrong...)
		requests.Add(101, home...)
	}
	must(requests.Bind(home...))(t).Add(0)
	requests.InFlight(home[:1]...)()
	requests.AddDuration(time.Second, 0, home...)
	if err := requests.TryAdd(1, wrong...); !strings.HasSuffix(err.Error(), `key "route" has no value "/x"`) {
		t.Error(err)
	}
	counts := map[string]uint64{"UnknownValue": 5, "ValueRange": 4, "MissingKey": 1, "Unit": 1}
	equal(t, requests.Refused(), counts)
	const sentence = "requests wormweekly: "
	equal(t, told, []string{
		sentence + ErrUnknownValue.sentence + `: requests: key "route" has no value "/x"`,
		sentence + ErrRange.sentence + ": requests: value 101 is not in the range from 1 to 100",
		sentence + ErrMissingKey.sentence + `: requests: key "status" is missing`,
		sentence + ErrUnit.sentence,
	})
	equal(t, totalsOf(t, metrics)[0].Count, uint64(0))
}

func TestTheZeroBoundRecordsNothing(t *testing.T) {
	var bound Bound
	bound.Add(1)
	bound.AddDuration(time.Second, time.Second)
	bound.InFlight()()
	if err := bound.TryAdd(1); !errors.Is(err, ErrUnknownInstrument) || bound.Instrument() != nil {
		t.Error(err)
	}
}

func TestDurationsOfInstrumentsAreClamped(t *testing.T) {
	metrics, _, _, _ := opened(t)
	duration := must(metrics.Instrument("duration"))(t)
	duration.AddDuration(time.Hour, time.Millisecond, home[0])
	must(duration.Bind(home[0]))(t).AddDuration(time.Minute, time.Millisecond)
	equal(t, duration.Clamped(), uint64(1))
	equal(t, totalsOf(t, metrics)[2].Sum.Int64(), int64(120_000))
}

func TestWhatIsCountedInIsCountedOut(t *testing.T) {
	metrics, _, _, _ := opened(t)
	inFlight := must(metrics.Instrument("in_flight"))(t)
	var outs []func()
	for made := 0; made < 110; made++ {
		outs = append(outs, inFlight.InFlight())
	}
	equal(t, totalsOf(t, metrics)[1].Sum.Int64(), int64(100))
	for _, out := range outs {
		out()
		out() // does nothing more
	}
	total := totalsOf(t, metrics)[1]
	equal(t, fmt.Sprint(total.Count, total.Sum), "200 0")
	equal(t, inFlight.Refused(), map[string]uint64{"Budget": 10})
}

func TestWhatGoesOverIsCountedOutInNoRun(t *testing.T) {
	metrics, _, _, _ := opened(t)
	out := must(metrics.Instrument("in_flight"))(t).InFlight()
	equal(t, must(metrics.RollOver(at(1)))(t).Totals[1].Sum.Int64(), int64(1))
	out()
	equal(t, totalsOf(t, metrics)[1].Count, uint64(0))
}

func TestRunsGoOverUnderTraffic(t *testing.T) {
	metrics, _, _, requests := opened(t)
	bound := must(requests.Bind(home...))(t)
	over, made := make(chan struct{}), make(chan uint64)
	work := func() {
		for own := uint64(0); ; {
			select {
			case <-over:
				made <- own
				return
			default:
				if bound.TryAdd(1) == nil {
					own++
				}
			}
		}
	}
	for number := 0; number < 4; number++ {
		go work()
	}
	settled := uint64(0)
	for start := int64(1); start < 30; start++ {
		settled += must(metrics.RollOver(at(start)))(t).Totals[0].Count
		time.Sleep(time.Millisecond)
	}
	close(over)
	for number := 0; number < 4; number++ {
		settled -= <-made
	}
	equal(t, settled+totalsOf(t, metrics)[0].Count, uint64(0))
}

// What the points of the first stream of a batch add up to.
func summed(batch Batch) (sum uint64) {
	for _, point := range batch.Streams[0].Points {
		sum += uint64(point.Value.(Sum))
	}
	return sum
}

func TestEachRecordingIsCollectedOnce(t *testing.T) {
	metrics, _, _, requests := opened(t)
	bound := must(requests.Bind(home...))(t)
	made := [4]uint64{}
	var isOver atomic.Bool
	var waiting sync.WaitGroup
	for number := range made {
		waiting.Add(1)
		go func(own *uint64) {
			defer waiting.Done()
			for tried := 0; tried < 30_000 || !isOver.Load(); tried++ {
				if bound.TryAdd(1) == nil {
					*own++
				}
			}
		}(&made[number])
	}
	// All that cumulative and delta readers collect. The first ones give it all again, so they are asked at the end alone.
	var all, new uint64
	collect := func(metrics *Metrics, isEnded bool) {
		new += summed(must(metrics.Readers[1].Collect(metrics.Instruments[0], time.Now()))(t))
		if isEnded {
			all += summed(must(metrics.Readers[0].Collect(metrics.Instruments[0], time.Now()))(t))
		}
	}
	for runs := 0; runs < 20; runs++ {
		collect(metrics, false)
		collect(must(metrics.RollOver(time.Now()))(t).Metrics, true)
	}
	isOver.Store(true)
	waiting.Wait()
	collect(must(metrics.RollOver(time.Now()))(t).Metrics, true)
	counted := made[0] + made[1] + made[2] + made[3]
	equal(t, [2]uint64{all, new}, [2]uint64{counted, counted})
	equal(t, counted > 100_000, true)
}

func TestAnUndeclaredValueIsAnother(t *testing.T) {
	metrics, _, _, requests := opened(t)
	other := String("", "/cart")
	equal(t, requests.KnownOr(String("route", "/"), other), String("route", "/"))
	equal(t, requests.KnownOr(String("route", "/none"), other), String("route", "/cart"))
	equal(t, requests.KnownOr(Int("status", 500), Int("", 404)), Int("status", 404))
	equal(t, requests.KnownOr(String("town", "x"), other), String("town", "x")) // the recording tells
	equal(t, requests.Replaced(), uint64(2))
	equal(t, []bool{requests.Declares("cached"), requests.Declares("town")}, []bool{true, false})
	done(t, requests.Close())
	done(t, metrics.Close())
	if err := metrics.Instruments[1].TryAdd(1); !errors.Is(err, ErrClosed) {
		t.Error(err)
	}
}

func TestARunThatHasEnded(t *testing.T) {
	metrics, _, _, requests := opened(t)
	requests.Add(3, home...)
	equal(t, must(metrics.PartLeft())(t), 200_004.0/200_005)
	ended := must(metrics.RollOver(at(5)))(t)
	equal(t, must(ended.Settle())(t), ended.Totals)
	equal(t, summed(must(ended.Readers[0].Collect(ended.Instruments[0], at(6)))(t)), uint64(3))
	if err := ended.Instruments[0].TryAdd(1, home...); !errors.Is(err, ErrClosed) {
		t.Error(err)
	}
	equal(t, must(metrics.PartLeft())(t), 1.0)
	if _, err := metrics.Readers[0].Collect(ended.Instruments[0], at(6)); !errors.Is(err, ErrStranger) {
		t.Error(err)
	}
}

func TestARecorderWaitsForAnInstrument(t *testing.T) {
	metrics, _, second, requests := opened(t)
	bound := must(requests.Bind(home...))(t)
	over := make(chan struct{})
	go func() {
		defer close(over)
		for made := 0; made < 20_000; made++ {
			bound.Add(1)
		}
	}()
	for made := 0; made < 20_000; made++ {
		done(t, second.Add(bound, 1))
	}
	<-over
	equal(t, totalsOf(t, metrics)[0].Count, uint64(40_000))
}

func TestWhereNobodyMayRecordItIsRefused(t *testing.T) {
	catalogue := strings.SplitN(testCatalogue, "[[recorder]]", 2)[0]
	metrics := must(Open(catalogue, testConfig))(t)
	requests := must(metrics.Instrument("requests"))(t)
	requests.Add(1, home...)
	if err := requests.TryAdd(1, home...); !errors.Is(err, ErrUnknownRecorder) {
		t.Error(err)
	}
	equal(t, requests.Refused(), map[string]uint64{"UnknownRecorder": 2})
}

func TestARecordingTakesNoMemoryOfGo(t *testing.T) {
	_, _, second, requests := opened(t)
	bound := must(requests.Bind(home...))(t)
	for name, call := range map[string]func(){
		"Add": func() { requests.Add(1, String("route", "/"), Int("status", 200)) }, "Bound.Add": func() { bound.Add(1) },
		"Recorder.Add": func() { _ = second.Add(bound, 1) },
	} {
		if made := testing.AllocsPerRun(1000, call); made >= 1 {
			t.Errorf("%s: %v", name, made)
		}
	}
}

func TestWaitsAreCounted(t *testing.T) {
	metrics, _, _, requests := opened(t)
	bound := must(requests.Bind(home...))(t)
	bound.Add(1)
	requests.Add(1, home...)
	equal(t, metrics.Waits(), Waits{})
	metrics.run.stop()
	began, ended := make(chan bool), make(chan bool)
	go func() {
		defer close(ended)
		close(began)
		requests.Add(1, home...)
	}()
	<-began
	time.Sleep(20 * time.Millisecond)
	metrics.run.goOn()
	<-ended
	must(metrics.RollOver(at(1)))(t)
	if waits := metrics.Waits(); waits.Count != 1 || waits.Longest <= 0 {
		t.Error(waits)
	}
}
