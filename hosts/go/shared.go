package wormweekly

import (
	"errors"
	"sync"
	"time"
)

// Refusals are counted by their reason.
type refusals struct {
	mutex  sync.Mutex
	counts map[*Refusal]uint64
	told   map[*Refusal]bool
}

// Counts one, and answers whether it is told for the first time now.
func (own *refusals) count(refusal *Refusal, isTold bool) bool {
	own.mutex.Lock()
	defer own.mutex.Unlock()
	if own.counts == nil {
		own.counts, own.told = map[*Refusal]uint64{}, map[*Refusal]bool{}
	}
	own.counts[refusal]++
	isNew := isTold && !own.told[refusal]
	own.told[refusal] = own.told[refusal] || isTold
	return isNew
}

// OnRefusal has each reason for which recordings on an instrument are refused told once, by the goroutine that meets it
// first. It takes the place of what was to tell them before.
func (metrics *Metrics) OnRefusal(tell func(on *Instrument, err error)) {
	metrics.run.tell.Store(&tell)
}

// Refused answers how often recordings on the instrument were refused, by the name of the refusal.
func (instrument *Instrument) Refused() map[string]uint64 {
	own := &instrument.refused
	own.mutex.Lock()
	defer own.mutex.Unlock()
	counts := map[string]uint64{}
	for refusal, count := range own.counts {
		counts[refusal.Name] += count
	}
	return counts
}

// Counts what is refused, and tells what is refused for the first time.
func (instrument *Instrument) settled(answer uint32, what *recording) {
	if answer != answerDone {
		instrument.count(refusalOf(answer), func() error { return instrument.said(answer, what) })
	}
}

func (instrument *Instrument) count(refusal *Refusal, said func() error) {
	tell := instrument.run.tell.Load()
	if instrument.refused.count(refusal, tell != nil) {
		(*tell)(instrument, said())
	}
}

// The error of an answer, with what it is about.
func (instrument *Instrument) said(answer uint32, what *recording) error {
	if what.isSet || len(instrument.run.recorders) == 0 {
		return errorOn(instrument, answer)
	}
	return errorSaid(instrument, answer, what.attributes, what.value)
}

// Add adds to a counter or an up-down counter.
func (instrument *Instrument) Add(value int64, attributes ...Attr) {
	what := recording{attributes: attributes, value: value}
	instrument.settled(instrument.share(&what, nil), &what)
}

// Record records a value of a histogram or a gauge.
func (instrument *Instrument) Record(value int64, attributes ...Attr) {
	instrument.Add(value, attributes...)
}

// TryAdd makes a recording on an instrument of any kind. The error is counted and told as those of Add.
func (instrument *Instrument) TryAdd(value int64, attributes ...Attr) error {
	return instrument.tried(&recording{attributes: attributes, value: value}, nil)
}

func (instrument *Instrument) tried(what *recording, in *cell) error {
	answer := instrument.share(what, in)
	if answer == answerDone {
		return nil
	}
	instrument.settled(answer, what)
	return instrument.said(answer, what)
}

// AddDuration records how long something took, in whole units, as time.Millisecond. What is above the range is recorded
// as its greatest value, and Clamped counts it.
func (instrument *Instrument) AddDuration(took, unit time.Duration, attributes ...Attr) {
	instrument.addDuration(took, unit, &recording{attributes: attributes}, nil)
}

func (instrument *Instrument) addDuration(took, unit time.Duration, what *recording, in *cell) {
	if unit <= 0 {
		instrument.count(ErrUnit, func() error { return ErrUnit })
		return
	}
	what.value = int64(took / unit)
	isAbove := what.value > instrument.keeping.greatest
	if isAbove {
		what.value = instrument.keeping.greatest
	}
	answer := instrument.share(what, in)
	instrument.settled(answer, what)
	if isAbove && answer == answerDone {
		instrument.clamped.Add(1)
	}
}

// InFlight counts some work in, on an up-down counter, and answers what counts it out again. What could not be counted
// out is not counted in: where fewer than two recordings are left for it, beside those that count out what is under
// way, it is refused as ErrBudget. After RollOver it is counted out in no run.
func (instrument *Instrument) InFlight(attributes ...Attr) (out func()) {
	bound, err := instrument.Bind(attributes...)
	if err != nil {
		var refusal *Refusal
		if errors.As(err, &refusal) {
			instrument.count(refusal, func() error { return err })
		}
		return func() {}
	}
	return bound.InFlight()
}

// Instrument is what it was looked up for, nil of the zero Bound.
func (bound Bound) Instrument() *Instrument { return bound.instrument }

// Add adds to a counter or an up-down counter. The zero Bound records nothing.
func (bound Bound) Add(value int64) {
	if bound.instrument == nil || bound.isAdded(value) {
		return
	}
	what := recording{set: bound.set, isSet: true, value: value}
	bound.instrument.settled(bound.instrument.share(&what, bound.cell), &what)
}

// Record records a value of a histogram or a gauge.
func (bound Bound) Record(value int64) { bound.Add(value) }

// TryAdd makes a recording on an instrument of any kind. The error is counted and told as those of Add.
func (bound Bound) TryAdd(value int64) error {
	if bound.instrument == nil {
		return errorOf(answerUnknownInstrument)
	}
	if bound.isAdded(value) {
		return nil
	}
	return bound.instrument.tried(&recording{set: bound.set, isSet: true, value: value}, bound.cell)
}

// AddDuration records a duration as Instrument.AddDuration does.
func (bound Bound) AddDuration(took, unit time.Duration) {
	if bound.instrument != nil {
		bound.instrument.addDuration(took, unit, &recording{set: bound.set, isSet: true}, bound.cell)
	}
}

// InFlight counts some work in, and answers what counts it out again, as Instrument.InFlight does.
func (bound Bound) InFlight() (out func()) {
	on := bound.instrument
	if on == nil {
		return func() {}
	}
	what := recording{set: bound.set, isSet: true, value: 1, isCountedIn: true}
	if answer := on.share(&what, nil); answer != answerDone {
		on.settled(answer, &what)
		return func() {}
	}
	var once sync.Once
	return func() { once.Do(func() { on.countOutShared(&what) }) }
}

// By the recorder that counted it in, and by another one where something else took what was kept.
func (instrument *Instrument) countOutShared(what *recording) {
	recorder := instrument.run.recorders[what.recorder]
	recorder.wait()
	answer := instrument.countOut(recorder, what)
	out := recording{set: what.set, isSet: true, value: -1}
	if answer == answerBudget {
		answer = instrument.share(&out, nil)
	}
	instrument.settled(answer, &out)
}
