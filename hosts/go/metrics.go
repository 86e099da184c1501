package wormweekly

import (
	"errors"
	"fmt"
	"math"
	"math/bits"
	"strings"
	"sync"
	"sync/atomic"
	"time"
)

// Metrics are a run: the instruments of a certified plan, with a seat for each recorder and each reader, in declared
// order.
type Metrics struct {
	Instruments []*Instrument
	Recorders   []*Recorder
	Readers     []*Reader
	// Warnings has a line for each view that does not fit an instrument.
	Warnings string

	run *run
}

// A run owns the handles, which are looked at while a recorder, an instrument or a reader is held, and changed while
// all are. Recorders are held before an instrument, in their order. No recording holds an instrument: C does.
type run struct {
	handles     *handles
	number      uint64 // how many runs ended in its place
	tell        atomic.Pointer[func(*Instrument, error)]
	instruments []*Instrument
	recorders   []*Recorder
	readers     []*Reader
	mask        uint32 // of a hint: less than twice as many as there are recorders
	waiting     waiting
}

// An Option says more of how a run is opened.
type Option func(*texts)

// Since is when the run begins, where that is not now.
func Since(start time.Time) Option { return func(of *texts) { of.start = nanoseconds(start) } }

// Certificate is one that somebody made. It is checked, whoever that was; where none is given, the library makes one.
func Certificate(certificate string) Option {
	return func(of *texts) { of.certificate, of.isCertified = certificate, true }
}

// What is before 1970 is 1970.
func nanoseconds(of time.Time) uint64 {
	if now := of.UnixNano(); now > 0 {
		return uint64(now)
	}
	return 0
}

// Open opens a run of a catalogue and a config, both TOML. Where they are at fault, or not safe together, the error
// wraps ErrFault and tells the first fault.
func Open(catalogue, config string, options ...Option) (*Metrics, error) {
	of := texts{catalogue: catalogue, config: config, start: nanoseconds(time.Now())}
	for _, option := range options {
		option(&of)
	}
	own, answer, fault := openHandles(&of)
	switch {
	case answer == answerFault:
		return nil, fmt.Errorf("%w: %s", ErrFault, fault)
	case answer != answerDone:
		return nil, errorOf(answer)
	}
	return newMetrics(&run{handles: own}, warnings(own)), nil
}

// Lint answers the remarks that "wormweekly lint" has on a catalogue and a config, a line each with its place: what
// looks like a mistake, also that the two are not safe together. At most a hundred are told, and in one more line how
// many there are beside these. Where the texts are at fault, the error wraps ErrFault and tells the first fault.
func Lint(catalogue, config string) ([]string, error) {
	text, answer := lint(catalogue, config)
	switch {
	case answer == answerFault:
		return nil, fmt.Errorf("%w: %s", ErrFault, text)
	case answer != answerDone:
		return nil, errorOf(answer)
	}
	return strings.FieldsFunc(text, func(one rune) bool { return one == '\n' }), nil
}

func newMetrics(own *run, warnings string) *Metrics {
	handles := own.handles
	for number, aggregations := range aggregations(handles) {
		own.instruments = append(own.instruments, &Instrument{run: own, number: number,
			name: name(handles, instrumentName, number), meter: name(handles, meterName, number),
			keeping: keepingOf(handles, number, aggregations)})
	}
	for number := 0; number < int(handles.counts.recorders); number++ {
		own.recorders = append(own.recorders, &Recorder{run: own, number: number, name: name(handles, recorderName, number),
			kept: make([]*kept, len(own.instruments))})
	}
	for number := 0; number < int(handles.counts.readers); number++ {
		own.readers = append(own.readers, &Reader{run: own, number: number, name: name(handles, readerName, number)})
	}
	if count := len(own.recorders); count > 0 {
		own.mask = 1<<bits.Len(uint(count-1)) - 1
	}
	return &Metrics{Instruments: copied(own.instruments), Recorders: copied(own.recorders), Readers: copied(own.readers),
		Warnings: warnings, run: own}
}

// The lists of a run stay as they are, whatever is done to those that it gives.
func copied[S any](seats []S) []S { return append([]S(nil), seats...) }

// Finds the only seat of a name.
func only[S interface{ Name() string }](seats []S, name string) (found S, err error) {
	count := 0
	for _, seat := range seats {
		if seat.Name() == name {
			found = seat
			count++
		}
	}
	if count != 1 {
		return found, fmt.Errorf("%w: %q", ErrUnknownName, name)
	}
	return found, nil
}

// Instrument finds the instrument of a name, where there is exactly one.
func (metrics *Metrics) Instrument(name string) (*Instrument, error) {
	return only(metrics.Instruments, name)
}

// Recorder finds the recorder of a name, where there is exactly one.
func (metrics *Metrics) Recorder(name string) (*Recorder, error) {
	return only(metrics.Recorders, name)
}

// Reader finds the reader of a name, where there is exactly one.
func (metrics *Metrics) Reader(name string) (*Reader, error) { return only(metrics.Readers, name) }

// Settle answers the total of each instrument, in order, each compared with what its recorders were told.
func (metrics *Metrics) Settle() ([]Total, error) {
	own := metrics.run
	own.stop()
	defer own.goOn()
	totals, _, err := own.settle()
	return totals, err
}

// Close ends the recordings of all instruments. They are collected and settled as before.
func (metrics *Metrics) Close() error {
	for _, instrument := range metrics.run.instruments {
		if err := instrument.Close(); err != nil && !errors.Is(err, ErrClosed) {
			return err
		}
	}
	return nil
}

// PartLeft is how much is left of all that may be recorded on an instrument, budgets and spare: the least part that any
// has, from 1 to 0. Roll over in time: past it, recordings are refused.
func (metrics *Metrics) PartLeft() (float64, error) {
	least := 1.0
	for _, instrument := range metrics.run.instruments {
		part, err := instrument.partLeft()
		if err != nil {
			return 0, err
		}
		least = math.Min(least, part)
	}
	return least, nil
}

func (instrument *Instrument) partLeft() (float64, error) {
	spare, err := instrument.Spare()
	most, left := float64(spare.Declared), float64(spare.Left)
	for _, recorder := range instrument.run.recorders {
		if err != nil {
			return 0, err
		}
		var own Budget
		own, err = recorder.Budget(instrument)
		most, left = most+float64(own.Declared), left+float64(own.Left)
	}
	if most == 0 {
		return 1, err
	}
	return left / most, err
}

// Waits answers how often recordings found all recorders in use, or the instrument, since the plan was opened, and how
// long one waited at most.
func (metrics *Metrics) Waits() Waits {
	own := metrics.run
	for _, instrument := range own.instruments {
		instrument.mutex.Lock()
		defer instrument.mutex.Unlock()
	}
	var counted waiting
	counted.addOf(own.handles, len(own.instruments))
	own.waiting.mutex.Lock()
	defer own.waiting.mutex.Unlock()
	counted.all.add(own.waiting.all.Count, own.waiting.all.Longest)
	return counted.all
}

// Ended is a run that has ended, with the total of each instrument, in order. Its instruments are closed; its readers
// collect them as they would have.
type Ended struct {
	*Metrics
	Totals []Total
}

// RollOver ends the run, and begins the next one of the same plan in its place: with budgets as declared, nothing
// counted, and all instruments open. Seats and bound sets go on in it, and a recording waits no longer than it takes to
// settle. The run that ended is answered: let each of its readers collect a last time, so that nothing is lost.
// Refused, all is as before.
func (metrics *Metrics) RollOver(start time.Time) (*Ended, error) {
	own := metrics.run
	for _, reader := range own.readers {
		reader.mutex.Lock()
		defer reader.mutex.Unlock()
	}
	// All memory is taken before recordings wait.
	next, err := own.next(start)
	if err != nil {
		return nil, err
	}
	before, totals, joined, err := own.change(next)
	if err != nil {
		next.free()
		return nil, err
	}
	for number := range own.instruments {
		closeInstrument(before, number) // one that is closed stays closed
	}
	gone := &run{handles: before}
	gone.tell.Store(own.tell.Load())
	ended := newMetrics(gone, metrics.Warnings)
	for number, instrument := range gone.instruments {
		instrument.isClosed, instrument.joined = true, joined[number]
	}
	return &Ended{ended, totals}, nil
}

// Opens the next run, by the first recorder.
func (own *run) next(start time.Time) (*handles, error) {
	if len(own.recorders) == 0 {
		return nil, errorOf(answerUnknownRecorder)
	}
	own.recorders[0].wait()
	defer own.recorders[0].giveBack()
	next, answer := own.handles.next(nanoseconds(start))
	return next, errorOf(answer)
}

// Where all of the run is settled, it gives place to the next one.
func (own *run) change(next *handles) (before *handles, totals []Total, joined []uint64, err error) {
	own.stop()
	defer own.goOn()
	if totals, joined, err = own.settle(); err != nil {
		return nil, nil, nil, err
	}
	own.waiting.addOf(own.handles, len(own.instruments))
	before, own.handles = own.handles, next
	own.number++
	for _, instrument := range own.instruments {
		instrument.spent.Store(0)
		instrument.isClosed = false
	}
	for _, recorder := range own.recorders {
		for at := range own.instruments {
			recorder.kept[at] = nil
		}
	}
	return before, totals, joined, nil
}

// Waits for all recorders and instruments, and keeps them.
func (own *run) stop() {
	for _, recorder := range own.recorders {
		recorder.wait()
	}
	for _, instrument := range own.instruments {
		instrument.mutex.Lock()
	}
}

func (own *run) goOn() {
	for _, instrument := range own.instruments {
		instrument.mutex.Unlock()
	}
	for _, recorder := range own.recorders {
		recorder.giveBack()
	}
}

// Makes what is kept, and settles. Of each instrument, with its total, how many recordings were added to others before.
func (own *run) settle() (totals []Total, joined []uint64, err error) {
	for number, instrument := range own.instruments {
		added, answer := instrument.makesAllHeld(false)
		if answer != answerDone {
			return nil, nil, errorOn(instrument, answer)
		}
		total, answer := settle(own.handles, number)
		if answer != answerDone {
			return nil, nil, errorOn(instrument, answer)
		}
		total.Count += added
		totals, joined = append(totals, total), append(joined, added)
	}
	return totals, joined, nil
}

// An Instrument is recorded on by any goroutine.
//
// Recordings are kept in memory of Go, and made many at a time: before a collection, a settlement, a budget that is
// asked for and a roll-over, and when a recorder has 64. Each is reserved of a budget, so that each is made. Of a gauge
// nothing is kept.
//
// A recording takes a recorder that no other goroutine is using. One whose budget is spent hands on to the next, and
// the last one asks the spare budget; only then is a recording refused. What is refused, for whatever reason, changes
// nothing but what Refused answers, and is told once for each reason to what Metrics.OnRefusal was given. Calls that
// begin with Try answer the error too.
type Instrument struct {
	run      *run
	number   int
	keeping  keeping
	isClosed bool   // changed while all recorders are held
	joined   uint64 // of a run that ended, how many recordings were added to others
	name     string
	meter    string
	// what is written often is not in lines of cache of what is only read
	_     [64]byte
	mutex sync.Mutex
	// the recorders that had no budget left, a bit for each; C changes it while it has the instrument
	spent atomic.Uint64
	// how many durations were above its range, and how many values were replaced
	clamped  atomic.Uint64
	replaced atomic.Uint64
	refused  refusals
}

// Name is the name.
func (instrument *Instrument) Name() string { return instrument.name }

// Meter is the name of its meter.
func (instrument *Instrument) Meter() string { return instrument.meter }

// Number is its number in the catalogue, from 0.
func (instrument *Instrument) Number() int { return instrument.number }

// Clamped is how many durations above its range were recorded as the greatest value of the range. Where these are many,
// declare a wider range.
func (instrument *Instrument) Clamped() uint64 { return instrument.clamped.Load() }

// A Bound set of attributes was looked up once, for recordings on an instrument. Where all streams of that are sums,
// recordings of one set are added up in memory of Go as long as the sum is in the range, and make one recording, which
// takes one of the budget: declare a range for sums. Total.Count has each of them.
type Bound struct {
	instrument *Instrument
	set        setKey
	cell       *cell // of what is added up
}

// Bind looks up a set of attributes, for recordings by Bound.Add or by Recorder.Add. With an error comes a Bound that
// records nothing.
func (instrument *Instrument) Bind(attributes ...Attr) (Bound, error) {
	own := instrument.run
	if len(own.recorders) == 0 {
		return Bound{}, errorOn(instrument, answerUnknownRecorder)
	}
	recorder := own.take()
	made := recorder.give(attributes)
	set, answer := prepare(recorder.place(instrument, true), made)
	if answer != answerDone {
		return Bound{}, errorSaid(instrument, answer, attributes, 0)
	}
	return Bound{instrument, set, new(cell)}, nil
}

// KnownOr answers the attribute, where the instrument declares its value for its key; else the key with the other
// value, and Replaced counts it. A recording tells what else is wrong.
func (instrument *Instrument) KnownOr(attribute, other Attr) Attr {
	if instrument.answerTo(attribute) != answerUnknownValue {
		return attribute
	}
	instrument.replaced.Add(1)
	other.key = attribute.key
	return other
}

// Replaced is how many values that it does not declare KnownOr replaced.
func (instrument *Instrument) Replaced() uint64 { return instrument.replaced.Load() }

// Declares says whether it declares a key.
func (instrument *Instrument) Declares(key string) bool {
	return instrument.answerTo(Bool(key, false)) != answerUnknownKey
}

// What the library answers to an attribute alone.
func (instrument *Instrument) answerTo(attribute Attr) uint32 {
	own := instrument.run
	if len(own.recorders) == 0 {
		return answerUnknownRecorder
	}
	recorder := own.take()
	made := recorder.give([]Attr{attribute})
	_, answer := prepare(recorder.place(instrument, true), made)
	return answer
}

// Grant gives a recorder so many recordings beside its budget, of what is left of the spare budget.
func (instrument *Instrument) Grant(recorder *Recorder, amount uint64) error {
	if recorder == nil {
		return errorOn(instrument, answerUnknownRecorder)
	}
	if recorder.run != instrument.run {
		return errorOn(instrument, answerStranger)
	}
	instrument.mutex.Lock()
	defer instrument.mutex.Unlock()
	return errorOn(instrument, grant(instrument, recorder.number, amount))
}

// Spare is what may be granted beside the budgets.
func (instrument *Instrument) Spare() (Spare, error) {
	instrument.mutex.Lock()
	defer instrument.mutex.Unlock()
	left, answer := spare(instrument.run.handles, instrument.number)
	return left, errorOn(instrument, answer)
}

// Close ends the recordings. The instrument is collected and settled as before.
func (instrument *Instrument) Close() error {
	own := instrument.run
	own.stop()
	defer own.goOn()
	if _, answer := instrument.makesAllHeld(true); answer != answerDone {
		return errorOn(instrument, answer)
	}
	instrument.isClosed = true
	return errorOn(instrument, closeInstrument(own.handles, instrument.number))
}

// A Reader is the seat of a reader. Goroutines may share it: one waits for the other.
type Reader struct {
	run    *run
	mutex  sync.Mutex
	number int
	name   string
	unsent bool // whether it keeps batches of all instruments that were not answered
}

// Name is the name.
func (reader *Reader) Name() string { return reader.name }

// Number is its number in the config, from 0.
func (reader *Reader) Number() int { return reader.number }

// Collect collects an instrument. A delta reader gets what was recorded since its last batch, a cumulative one since
// the start. A later batch has no earlier time.
func (reader *Reader) Collect(instrument *Instrument, now time.Time) (Batch, error) {
	reader.mutex.Lock()
	defer reader.mutex.Unlock()
	if err := reader.collect(instrument, now); err != nil {
		return Batch{}, err
	}
	batch, answer := batchOf(reader.run.handles, reader.number)
	return batch, errorOn(instrument, answer)
}

// Text collects an instrument as Collect does, and answers the library's text of the batch.
func (reader *Reader) Text(instrument *Instrument, now time.Time) (string, error) {
	reader.mutex.Lock()
	defer reader.mutex.Unlock()
	if err := reader.collect(instrument, now); err != nil {
		return "", err
	}
	text, answer := batchText(reader.run.handles, reader.number)
	return text, errorOn(instrument, answer)
}

// OTLP collects an instrument as Collect does, and answers the batch in the OpenTelemetry protocol, with the attributes
// of the resource: a message that a collector takes at /v1/metrics as application/x-protobuf; empty where there are no
// points. Messages one after the other are one message. Keep one that was not taken: a delta reader does not give its
// window again.
func (reader *Reader) OTLP(instrument *Instrument, now time.Time, resource ...Attr) ([]byte, error) {
	return reader.otlp(instrument, now, resource, 0)
}

// OTLPLine is the same as a line of JSON, which a collector takes as application/json. Each line is a post of its own:
// of several, a collector reads the first alone.
func (reader *Reader) OTLPLine(instrument *Instrument, now time.Time, resource ...Attr) ([]byte, error) {
	return reader.otlp(instrument, now, resource, 1)
}

func (reader *Reader) otlp(instrument *Instrument, now time.Time, resource []Attr, json int) ([]byte, error) {
	return reader.encoded(func() error { return reader.collect(instrument, now) }, resource, json)
}

// A resource that is not taken is told before a window is collected, which would be lost.
func (reader *Reader) encoded(collect func() error, resource []Attr, json int) ([]byte, error) {
	of := giveMany(resource)
	defer of.free()
	reader.mutex.Lock()
	defer reader.mutex.Unlock()
	if _, answer := batchOTLP(reader.run.handles, reader.number, of, json); answer != answerDone {
		return nil, errorOf(answer)
	}
	if err := collect(); err != nil {
		return nil, err
	}
	out, answer := batchOTLP(reader.run.handles, reader.number, of, json)
	if answer == answerDone {
		reader.unsent = false
	}
	return out, errorOf(answer)
}

// OTLP collects all instruments, and answers them as one message, which is empty where there are no points: the
// resource once, and the instruments of each meter side by side. Where an instrument is refused, those before it come
// with the next message. Keep one that was not taken, as of Reader.OTLP.
func (metrics *Metrics) OTLP(reader *Reader, now time.Time, resource ...Attr) ([]byte, error) {
	return reader.encoded(func() error { return reader.collectAll(metrics, now, reader.unsent) }, resource, 0)
}

// OTLPLine is the same as a line of JSON.
func (metrics *Metrics) OTLPLine(reader *Reader, now time.Time, resource ...Attr) ([]byte, error) {
	return reader.encoded(func() error { return reader.collectAll(metrics, now, reader.unsent) }, resource, 1)
}

// Collects all, behind the batches that are kept or in place of them.
func (reader *Reader) collectAll(metrics *Metrics, now time.Time, isBehind bool) error {
	for _, instrument := range metrics.Instruments {
		if err := reader.collectKept(instrument, now, isBehind); err != nil {
			return err
		}
		isBehind, reader.unsent = true, true
	}
	return nil
}

// Last is the batch that was collected last. Before one, the error is ErrNoBatch.
func (reader *Reader) Last() (Batch, error) {
	reader.mutex.Lock()
	defer reader.mutex.Unlock()
	batch, answer := batchOf(reader.run.handles, reader.number)
	return batch, errorOf(answer)
}

// Collects under the mutex of the reader. That of another run is refused before its handles are looked at, since a
// roll-over of that run may be changing them.
func (reader *Reader) collect(instrument *Instrument, now time.Time) error {
	return reader.collectKept(instrument, now, false)
}

// The same; the batch is kept behind those that are kept, or alone.
func (reader *Reader) collectKept(instrument *Instrument, now time.Time, keeps bool) error {
	if instrument == nil {
		return errorOf(answerUnknownInstrument)
	}
	if instrument.run != reader.run {
		return errorOn(instrument, answerStranger)
	}
	if answer := instrument.makesAll(); answer != answerDone {
		return errorOn(instrument, answer)
	}
	instrument.mutex.Lock()
	defer instrument.mutex.Unlock()
	answer := collect(reader.run.handles, instrument.number, reader.number, nanoseconds(now), keeps)
	return errorOn(instrument, answer)
}
