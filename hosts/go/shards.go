package wormweekly

import (
	"runtime"
	"sync"
	"sync/atomic"
	"time"
)

// A hint is where a processor begins to look for a recorder.
type hint struct{ number uint32 }

var nextHint atomic.Uint32

// Pools keep what they lend by processor.
var hints = sync.Pool{New: func() any { return &hint{nextHint.Add(1)} }}

// The recorder where to begin.
func (own *run) first() int {
	lent := hints.Get().(*hint)
	at := int(lent.number & own.mask)
	hints.Put(lent)
	if at >= len(own.recorders) {
		at -= len(own.recorders)
	}
	return at
}

// A recorder is taken for one call, and given back by C before that returns: nobody waits for a goroutine that is to
// be run again. By its run it is taken for longer, and by a call of its own so that another one is refused.
const (
	isFree = iota
	isTaken
	isOwn
)

func (recorder *Recorder) takeAs(state uint32) bool {
	return recorder.taken.Load() == isFree && recorder.taken.CompareAndSwap(isFree, state)
}

func (recorder *Recorder) giveBack() { recorder.taken.Store(isFree) }

// Takes it, as soon as nobody has it.
func (recorder *Recorder) wait() {
	var wait wait
	for !recorder.takeAs(isTaken) {
		wait.goesOn()
	}
}

// A wait for a recorder. It is short, unless whoever has the recorder is interrupted.
type wait struct{ began time.Time }

const (
	waitsAtWork = 50 * time.Microsecond
	waitsAwake  = time.Millisecond
)

func (own *wait) goesOn() {
	if own.began.IsZero() {
		own.began = time.Now()
	}
	switch took := time.Since(own.began); {
	case took > waitsAwake:
		time.Sleep(waitsAtWork)
	case took > waitsAtWork:
		runtime.Gosched()
	}
}

// Waits are those of recordings that found all recorders in use. Where they are many, declare more recorders.
type Waits struct {
	Count   uint64
	Longest time.Duration
}

func (own *Waits) add(count uint64, longest time.Duration) {
	own.Count += count
	if longest > own.Longest {
		own.Longest = longest
	}
}

// The waits of recordings on all instruments of a run, as they are counted.
type waiting struct {
	mutex sync.Mutex
	all   Waits
}

func (own *waiting) add(count uint64, longest time.Duration) {
	own.mutex.Lock()
	defer own.mutex.Unlock()
	own.all.add(count, longest)
}

// Those that are counted in C, of what was recorded with these handles.
func (own *waiting) addOf(of *handles, instruments int) {
	for number := 0; number < instruments; number++ {
		count, longest := waitsOn(of, number)
		own.add(count, time.Duration(longest))
	}
}

// A recording that any recorder may make: of attributes, or of a set that was looked up. What is counted in gets the
// recorder and the run that it is counted in.
type recording struct {
	attributes  []Attr
	set         setKey
	isSet       bool
	isGiven     bool // a set key that nobody looked up: it may be refused, so that it is not kept for later
	value       int64
	isCountedIn bool
	recorder    int
	run         uint64
}

// A plan has at most 64 recorders, so that a set of them is a number.
func bit(recorder int) uint64 { return 1 << recorder }

func (instrument *Instrument) isSpent(recorder int) bool {
	return instrument.spent.Load()&bit(recorder) != 0
}

func (instrument *Instrument) areSpent() bool {
	for number := range instrument.run.recorders {
		if !instrument.isSpent(number) {
			return false
		}
	}
	return true
}

// Makes a recording by a recorder that is taken.
func (instrument *Instrument) made(recorder *Recorder, what *recording) uint32 {
	run := instrument.run.number
	switch {
	case what.isCountedIn:
		answer := countIn(recorder.at(instrument), what.set)
		if answer == answerDone {
			what.recorder, what.run = recorder.number, run
		}
		return answer
	case what.isSet:
		return recordSet(recorder.at(instrument), what.set, what.value)
	default:
		made := recorder.give(what.attributes)
		return record(recorder.at(instrument), made, what.value)
	}
}

// Counts out what is counted in by a recorder, which is taken. In another run there is nothing to count out.
func (instrument *Instrument) countOut(recorder *Recorder, what *recording) uint32 {
	if what.run != instrument.run.number {
		recorder.giveBack()
		return answerDone
	}
	return countOut(recorder.at(instrument), what.set)
}

// Takes any recorder, to ask it what all would answer. There has to be one.
func (own *run) take() *Recorder {
	first := own.first()
	for step := range own.recorders {
		recorder := own.recorders[(first+step)%len(own.recorders)]
		if recorder.takeAs(isTaken) {
			return recorder
		}
	}
	own.recorders[first].wait()
	return own.recorders[first]
}

// Makes a recording, or keeps it, that of a bound set in its cell: with a recorder that is free and has budget left.
// Where all with budget are busy, it waits for one of them, which takes as long as one recording; where none has budget
// left, one asks the spare budget.
func (instrument *Instrument) share(what *recording, in *cell) uint32 {
	if len(instrument.run.recorders) == 0 {
		return answerUnknownRecorder
	}
	first := instrument.run.first()
	if answer, isDone := instrument.keep(first, what, in); isDone {
		return answer
	}
	for {
		answer := instrument.byRecorders(first, what)
		if answer == answerBudget {
			answer = instrument.bySpare(first, what)
		}
		// Another goroutine may have been granted what was spare meanwhile, and has some of it left.
		if answer != answerBudget || what.isCountedIn || instrument.areSpent() {
			return answer
		}
	}
}

// Takes the recorders that nobody uses, but for those that are known to be spent, until a call with one is done. Those
// that are in use are tried again.
func (instrument *Instrument) byAny(first int, call func(*Recorder) bool) {
	var wait wait
	for !instrument.isTried(first, call) {
		wait.goesOn()
	}
	if !wait.began.IsZero() {
		instrument.run.waiting.add(1, time.Since(wait.began))
	}
}

// The same once. False where the call is not done, and a recorder was not tried.
func (instrument *Instrument) isTried(first int, call func(*Recorder) bool) bool {
	recorders := instrument.run.recorders
	isBusy := false
	for step := range recorders {
		recorder := recorders[(first+step)%len(recorders)]
		if instrument.isSpent(recorder.number) {
			continue
		}
		if !recorder.takeAs(isTaken) {
			isBusy = true
		} else if call(recorder) {
			return true
		}
	}
	return !isBusy
}

func (instrument *Instrument) byRecorders(first int, what *recording) uint32 {
	answer := uint32(answerBudget)
	instrument.byAny(first, func(recorder *Recorder) bool {
		answer = instrument.made(recorder, what)
		return answer != answerBudget
	})
	return answer
}

// By the first recorder, which asks the spare budget. What wants more than one recording may ask more than once, and
// so does what comes after another recording by the same recorder.
func (instrument *Instrument) bySpare(first int, what *recording) uint32 {
	recorder := instrument.run.recorders[first]
	for {
		recorder.wait()
		switch answer := askPart(recorder.at(instrument), len(instrument.run.recorders)); answer {
		case answerDone:
			recorder.wait()
			if answer := instrument.made(recorder, what); answer != answerBudget {
				return answer
			}
		case answerNoSpare:
			return answerBudget
		default:
			return answer
		}
	}
}
