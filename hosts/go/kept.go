package wormweekly

import "sync/atomic"

// What is kept of an instrument by a recorder: recordings that it is still to make, so that one call of C makes many.
// There are never more than the recorder has left, so that each is made. It is looked at while the recorder is taken.
type kept struct {
	*keptList
	cells  [mostKept]*cell // where the value is, of those that are still added to
	joined uint64          // how many were added to one that was kept before
}

func (own *kept) push(set setKey, value int64, in *cell) {
	own.list[own.length], own.cells[own.length] = prepared{set, value}, in
	own.length++
	own.left--
}

func (own *kept) pop() {
	own.length--
	own.left++
	own.cells[own.length] = nil
}

// Takes the values out of the cells, which are empty then.
func (own *kept) take() {
	for at, in := range own.cells[:own.length] {
		if in != nil {
			state := in.Swap(0)
			own.list[at].value, own.cells[at] = sumOf(state), nil
			own.joined += countOf(state) - 1
		}
	}
}

// A cell has recordings of a bound set that are added up, to be made as one: in its upper bits how many, in the others
// their sum; 0 where there are none. Then it is in no list, else in that of one recorder. Any goroutine adds to one
// that has some.
type cell struct {
	atomic.Uint64
	_ [56]byte // no two share a line of cache
}

const (
	sumBits  = 48
	mostSum  = 1<<(sumBits-1) - 1
	mostMany = 1<<(64-sumBits) - 1
)

func stateOf(count uint64, sum int64) uint64 { return count<<sumBits | uint64(sum)&(1<<sumBits-1) }

func countOf(state uint64) uint64 { return state >> sumBits }

func sumOf(state uint64) int64 { return int64(state<<(64-sumBits)) >> (64 - sumBits) }

// How recordings of bound sets on an instrument are kept: only what is in its range, and sums too.
type keeping struct {
	isKept, isJoined bool
	least, greatest  int64
}

// No recording of an instrument is kept where the last value counts. Where all streams are sums, those of a set are
// added up.
func keepingOf(own *handles, instrument int, aggregations []int) keeping {
	made := keeping{isKept: true, isJoined: true}
	made.least, made.greatest = rangeOf(own, instrument)
	for _, one := range aggregations {
		made.isKept = made.isKept && one != aggregatedLast
		made.isJoined = made.isJoined && one == aggregatedSum
	}
	return made
}

func (how *keeping) has(value int64) bool { return value >= how.least && value <= how.greatest }

// Adds to a cell that has some, where the sum is in the range.
func (how *keeping) join(in *cell, value int64) bool {
	for {
		state := in.Load()
		sum := sumOf(state) + value // of values that fit in a state
		if state == 0 || !how.has(sum) || !isSmall(sum) || countOf(state) == mostMany {
			return false
		}
		if in.CompareAndSwap(state, stateOf(countOf(state)+1, sum)) {
			return true
		}
	}
}

func isSmall(value int64) bool { return value >= -mostSum && value <= mostSum }

// Whether it is added to others of its set.
func (bound *Bound) isAdded(value int64) bool {
	how := &bound.instrument.keeping
	return how.isJoined && how.has(value) && isSmall(value) && how.join(bound.cell, value)
}

// Keeps a recording, by a recorder that nobody uses and that has budget left, or answers why its attributes are
// refused. False where it is neither.
func (instrument *Instrument) keep(first int, what *recording, in *cell) (answer uint32, isDone bool) {
	if how := &instrument.keeping; !how.isKept || what.isCountedIn || what.isGiven || !how.has(what.value) {
		return answerDone, false
	}
	instrument.byAny(first, func(recorder *Recorder) bool {
		answer, isDone = recorder.keep(instrument, what, in)
		return isDone
	})
	return answer, isDone
}

// The same by a recorder that is taken, and given back.
func (recorder *Recorder) keep(on *Instrument, what *recording, in *cell) (answer uint32, isDone bool) {
	hasPlace := recorder.keptOf(on).hasPlace()
	switch {
	case !hasPlace && recorder.isEnded(on):
		recorder.giveBack()
		return answerDone, false
	case !what.isSet:
		made := recorder.give(what.attributes)
		if !hasPlace {
			return keep(recorder.at(on), made, what.value)
		}
		return keep(recorder.place(on, true), made, what.value)
	case !hasPlace && !recorder.makesPlace(on):
		return answerDone, false
	}
	own := recorder.keptOf(on)
	if in != nil && on.keeping.isJoined && isSmall(what.value) {
		own.fill(&on.keeping, what.set, what.value, in)
	} else {
		own.push(what.set, what.value, nil)
	}
	recorder.giveBack()
	return answerDone, true
}

func (own *kept) hasPlace() bool { return own.length < mostKept && own.left > 0 }

// Whether nothing may be kept any more.
func (recorder *Recorder) isEnded(on *Instrument) bool {
	return on.isClosed || recorder.keptOf(on).length == 0 && on.isSpent(recorder.number)
}

// Makes what is kept, so that there is place again, and takes the recorder again. Where another goroutine was quicker,
// or there is no place, it is not taken.
func (recorder *Recorder) makesPlace(on *Instrument) bool {
	if !makePlace(recorder.at(on)) || !recorder.takeAs(isTaken) {
		return false
	}
	if recorder.keptOf(on).hasPlace() {
		return true
	}
	recorder.giveBack()
	return false
}

func (recorder *Recorder) keptOf(on *Instrument) *kept {
	if recorder.kept[on.number] == nil {
		recorder.kept[on.number] = &kept{keptList: new(keptList)}
	}
	return recorder.kept[on.number]
}

// Begins a cell, or begins it anew, so that what it had is a recording of its own. There is place for one.
func (own *kept) fill(how *keeping, set setKey, value int64, in *cell) {
	for !how.join(in, value) {
		state := in.Load()
		if state == 0 {
			own.push(set, 0, in)
		} else {
			own.push(set, sumOf(state), nil)
		}
		if in.CompareAndSwap(state, stateOf(1, value)) {
			if state != 0 {
				own.joined += countOf(state) - 1
			}
			return
		}
		own.pop()
	}
}

// Where a recorder that is taken makes something else, before which what is kept is made. C gives it back.
func (recorder *Recorder) at(on *Instrument) place {
	if own := recorder.kept[on.number]; own != nil {
		own.take()
	}
	return recorder.place(on, true)
}

// Makes what is kept of an instrument by a recorder that is taken. Nothing may be kept after it where that closes.
func (recorder *Recorder) makes(on *Instrument, isGivenBack, closes bool) uint32 {
	own := recorder.kept[on.number]
	if own != nil && (own.length > 0 || closes) {
		own.take()
		return makeKept(recorder.place(on, isGivenBack), closes)
	}
	if isGivenBack {
		recorder.giveBack()
	}
	return answerDone
}

// Makes what all recorders keep of an instrument: all that was recorded before. Meanwhile a cell that is full goes over
// from the list of one recorder to that of another, which may have been looked at before, but no cell goes over again.
func (instrument *Instrument) makesAll() (answer uint32) {
	if instrument.keeping.isKept {
		answer = instrument.makesEach()
	}
	if instrument.keeping.isJoined && answer == answerDone {
		answer = instrument.makesEach()
	}
	return answer
}

func (instrument *Instrument) makesEach() uint32 {
	for _, recorder := range instrument.run.recorders {
		recorder.wait()
		if answer := recorder.makes(instrument, true, false); answer != answerDone {
			return answer
		}
	}
	return answerDone
}

// The same while all recorders are held, with how many recordings were added to others.
func (instrument *Instrument) makesAllHeld(closes bool) (joined uint64, answer uint32) {
	joined = instrument.joined
	for _, recorder := range instrument.run.recorders {
		if answer = recorder.makes(instrument, false, closes); answer != answerDone {
			return joined, answer
		}
		if own := recorder.kept[instrument.number]; own != nil {
			joined += own.joined
		}
	}
	return joined, answerDone
}
