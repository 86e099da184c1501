package wormweekly

import (
	"sync/atomic"
	"time"
)

// A Recorder is the seat of a recorder, for a goroutine that wants its own: Instrument.Add needs none. It is for one
// goroutine at a time.
type Recorder struct {
	run    *run
	taken  atomic.Uint32 // C gives it back by this number
	number int
	name   string
	list   []prepared
	kept   []*kept // of each instrument, what is still to be made
	// so that no two share lines of cache
	_ [64]byte
}

// Name is the name.
func (recorder *Recorder) Name() string { return recorder.name }

// Number is its number in the catalogue, from 0.
func (recorder *Recorder) Number() int { return recorder.number }

// Record makes a recording. Where it is refused, nothing is counted.
func (recorder *Recorder) Record(on *Instrument, value int64, attributes ...Attr) error {
	if err := recorder.begin(on); err != nil {
		return err
	}
	answer := on.made(recorder, &recording{attributes: attributes, value: value})
	return errorSaid(on, answer, attributes, value)
}

// Add makes a recording with a bound set of attributes. Where it is refused, nothing is counted.
func (recorder *Recorder) Add(bound Bound, value int64) error {
	on := bound.instrument
	if err := recorder.begin(on); err != nil {
		return err
	}
	return errorOn(on, on.made(recorder, &recording{set: bound.set, isSet: true, value: value}))
}

// AddSet makes a recording of a set key, as code that is made from a catalogue writes one: for each key of the
// instrument, in its order, 0 where the recording has no such key, else the number of its value, from 1; behind them 0.
// A set key that no attributes come to is refused as ErrUnknownValue, or as ErrCombination where the instrument does not
// allow the combination. Where it is refused, nothing is counted. A nil recorder is any that is free, as for
// Instrument.TryAdd.
func (recorder *Recorder) AddSet(on *Instrument, set [8]uint16, value int64) error {
	if recorder == nil {
		return on.tried(&recording{set: setKeyOf(set), isSet: true, isGiven: true, value: value}, nil)
	}
	if err := recorder.begin(on); err != nil {
		return err
	}
	return errorOn(on, on.made(recorder, &recording{set: setKeyOf(set), isSet: true, value: value}))
}

// AddDuration records how long something took, in whole units, as time.Millisecond. What is above the range of the
// instrument is recorded as its greatest value, and Instrument.Clamped counts it. Where it is refused, nothing is
// counted.
func (recorder *Recorder) AddDuration(bound Bound, took, unit time.Duration) error {
	if unit <= 0 {
		return ErrUnit
	}
	on := bound.instrument
	if on == nil {
		return errorOf(answerUnknownInstrument)
	}
	whole := int64(took / unit)
	if whole <= on.keeping.greatest {
		return recorder.Add(bound, whole)
	}
	if err := recorder.Add(bound, on.keeping.greatest); err != nil {
		return err
	}
	on.clamped.Add(1)
	return nil
}

// An Item is a recording of a list.
type Item struct {
	Bound Bound
	Value int64
}

// AddAll makes several recordings on one instrument in one call of C, which costs as much as that of one. Where one is
// refused, the error is a ListError: those before it are made. An item of another instrument than the first is refused.
func (recorder *Recorder) AddAll(items []Item) error {
	if len(items) == 0 {
		return nil
	}
	on := items[0].Bound.instrument
	if err := recorder.begin(on); err != nil {
		return &ListError{0, err}
	}
	recorder.list = recorder.list[:0]
	for _, item := range items {
		if item.Bound.instrument != on {
			break
		}
		recorder.list = append(recorder.list, prepared{item.Bound.set, item.Value})
	}
	list := recorder.list
	answer, made := recordList(recorder.at(on), list)
	if answer == answerDone && made < len(items) {
		answer = answerUnknownInstrument
	}
	if answer == answerDone {
		return nil
	}
	return &ListError{made, errorOn(on, answer)}
}

// InFlight counts some work in, on an up-down counter, and answers what counts it out again. Where fewer than two
// recordings are left for it, beside those that count out what is under way, the error wraps ErrBudget and nothing is
// counted: what is counted in can be counted out, unless something else records on the instrument by this recorder.
func (recorder *Recorder) InFlight(bound Bound) (out func() error, err error) {
	on := bound.instrument
	nothing := func() error { return nil }
	if err := recorder.begin(on); err != nil {
		return nothing, err
	}
	what := recording{set: bound.set, isSet: true, value: 1, isCountedIn: true}
	if answer := on.made(recorder, &what); answer != answerDone {
		return nothing, errorOn(on, answer)
	}
	return func() error {
		if err := recorder.begin(on); err != nil {
			return err
		}
		return errorOn(on, on.countOut(recorder, &what))
	}, nil
}

// Ask grants the recorder so many recordings beside its budget, of what is left of the spare budget. Any goroutine may
// ask.
func (recorder *Recorder) Ask(on *Instrument, amount uint64) error {
	if err := recorder.takes(on); err != nil {
		return err
	}
	recorder.wait()
	return errorOn(on, ask(recorder.at(on), amount))
}

// Budget is what it may record on an instrument. Any goroutine may ask.
func (recorder *Recorder) Budget(on *Instrument) (Budget, error) {
	if err := recorder.takes(on); err != nil {
		return Budget{}, err
	}
	recorder.wait()
	left, answer := budget(recorder.at(on))
	return left, errorOn(on, answer)
}

// Refuses an instrument of another run before its handles are looked at: a roll-over may be changing them.
func (recorder *Recorder) takes(on *Instrument) error {
	if on == nil {
		return errorOf(answerUnknownInstrument)
	}
	if on.run != recorder.run {
		return errorOn(on, answerStranger)
	}
	return nil
}

// Takes the recorder for a call of its own. It waits for the run and for a recording by an instrument, and not for
// another goroutine that has the recorder.
func (recorder *Recorder) begin(on *Instrument) error {
	if err := recorder.takes(on); err != nil {
		return err
	}
	var wait wait
	for !recorder.takeAs(isOwn) {
		if recorder.taken.Load() == isOwn {
			return ErrInUse
		}
		wait.goesOn()
	}
	return nil
}
