package wormweekly

// The calls of libwormweekly, those under locks by shards.c: every handle, and each length that C is told, is here.

/*
#cgo CFLAGS: -I${SRCDIR}/include -I${SRCDIR}/../include -I${SRCDIR}/../c
#cgo LDFLAGS: -L${SRCDIR}/lib -L${SRCDIR}/../lib -L${SRCDIR}/../out -l:libwormweekly.a -lpthread
#include <stdlib.h>
#include "shards.h"
*/
import "C"

import (
	"math"
	"runtime"
	"unsafe"
)

// The answers that this package meets by itself.
const (
	answerDone              = 0
	answerUnknownInstrument = 1
	answerUnknownRecorder   = 2
	answerUnknownKey        = 4
	answerUnknownValue      = 5
	answerBudget            = 9
	answerMemory            = 11
	answerStranger          = 12
	answerNoSpare           = 14
	answerTooShort          = 102
	answerFault             = 103
	answerUnknown           = 106
)

// A setKey is what a set of attributes comes to on an instrument.
type setKey struct{ low, high uint64 }

func setKeyOf(set [8]uint16) (key setKey) {
	*(*[8]uint16)(unsafe.Pointer(&key)) = set
	return key
}

// A prepared recording, as C has it.
type prepared struct {
	set   setKey
	value int64
}

var _ [unsafe.Sizeof(C.wormweekly_prepared{})]byte = [unsafe.Sizeof(prepared{})]byte{}

// How a point is made of recordings; else a histogram.
const (
	aggregatedSum  = 0
	aggregatedLast = 1
)

type texts struct {
	catalogue, config, certificate string
	isCertified                    bool
	start                          uint64
}

// A list of recordings that are kept, as C has it: how many there are, and how many more there may be.
type keptList struct {
	list         [mostKept]prepared
	length, left uint64
}

const mostKept = C.MOST_KEPT

var _ [unsafe.Sizeof(C.kept{})]byte = [unsafe.Sizeof(keptList{})]byte{}

// Handles are lists of them in memory of C, each with room for one more, so that none is null.
type handles struct {
	counts      C.wormweekly_counts
	instruments *C.wormweekly_instrument
	recorders   *C.wormweekly_recorder
	readers     *C.wormweekly_reader
	rooms       *C.few_attributes
	guards      *C.guarded
	shards      *C.shard
}

func bytesOf(text string) (*C.uint8_t, C.size_t) {
	own := append([]byte(text), 0)
	return (*C.uint8_t)(unsafe.Pointer(&own[0])), C.size_t(len(text))
}

func (own *handles) makeRoom() {
	own.instruments = (*C.wormweekly_instrument)(C.calloc(own.counts.instruments+1, C.sizeof_wormweekly_instrument))
	own.recorders = (*C.wormweekly_recorder)(C.calloc(own.counts.recorders+1, C.sizeof_wormweekly_recorder))
	own.readers = (*C.wormweekly_reader)(C.calloc(own.counts.readers+1, C.sizeof_wormweekly_reader))
	own.rooms = (*C.few_attributes)(C.calloc(own.counts.recorders+1, C.sizeof_few_attributes))
	own.guards = (*C.guarded)(C.calloc(own.counts.instruments+1, C.sizeof_guarded))
	own.shards = (*C.shard)(C.calloc(own.counts.recorders*own.counts.instruments+1, C.sizeof_shard))
}

// What was opened is used from here on.
func (own *handles) opened() *handles {
	C.fill_shards(own.shards, own.guards, own.instruments, own.recorders, &own.counts)
	runtime.SetFinalizer(own, (*handles).free)
	return own
}

// Opens what there is room for, and tells how much there has to be.
func (own *handles) openRoom(of *texts, wanted *C.wormweekly_counts, fault []byte) (uint32, int) {
	catalogue, catalogueLength := bytesOf(of.catalogue)
	config, configLength := bytesOf(of.config)
	has := own.counts
	var length C.size_t
	out := (*C.uint8_t)(unsafe.Pointer(&fault[0]))
	if of.isCertified {
		certificate, certificateLength := bytesOf(of.certificate)
		answer := C.wormweekly_open_certified(catalogue, catalogueLength, config, configLength, certificate,
			certificateLength, C.uint64_t(of.start), own.instruments, has.instruments, own.recorders,
			has.recorders, own.readers, has.readers, wanted, out, C.size_t(len(fault)), &length)
		return uint32(answer), int(length)
	}
	answer := C.wormweekly_open(catalogue, catalogueLength, config, configLength, C.uint64_t(of.start),
		own.instruments, has.instruments, own.recorders, has.recorders, own.readers, has.readers, wanted, out,
		C.size_t(len(fault)), &length)
	return uint32(answer), int(length)
}

// Opens a run. The first call has no room, and is told how much there has to be. A fault is told as a text.
func openHandles(of *texts) (*handles, uint32, string) {
	fault := make([]byte, 4096)
	var wanted C.wormweekly_counts
	own := new(handles)
	own.makeRoom()
	answer, length := own.openRoom(of, &wanted, fault)
	if answer == answerTooShort {
		own.free()
		own = &handles{counts: wanted}
		own.makeRoom()
		answer, length = own.openRoom(of, &wanted, fault)
	}
	if answer != answerDone {
		own.free()
		return nil, answer, string(fault[:min(length, len(fault))])
	}
	return own.opened(), answerDone, ""
}

// Opens the next run of the plan, in room for as much as there is of this one.
func (own *handles) next(start uint64) (*handles, uint32) {
	next := &handles{counts: own.counts}
	next.makeRoom()
	var counts C.wormweekly_counts
	answer := C.wormweekly_next(own.recorder(0), C.uint64_t(start), next.instruments, next.counts.instruments,
		next.recorders, next.counts.recorders, next.readers, next.counts.readers, &counts)
	if answer != answerDone {
		next.free()
		return nil, uint32(answer)
	}
	return next.opened(), answerDone
}

func (own *handles) free() {
	for at := 0; at < int(own.counts.instruments); at++ {
		C.wormweekly_free_instrument(own.instrument(at))
	}
	for at := 0; at < int(own.counts.recorders); at++ {
		C.wormweekly_free_recorder(own.recorder(at))
	}
	for at := 0; at < int(own.counts.readers); at++ {
		C.wormweekly_free_reader(own.reader(at))
	}
	C.free(unsafe.Pointer(own.instruments))
	C.free(unsafe.Pointer(own.recorders))
	C.free(unsafe.Pointer(own.readers))
	C.free(unsafe.Pointer(own.rooms))
	C.free_shards(own.shards, own.guards, &own.counts)
	runtime.SetFinalizer(own, nil)
}

func (own *handles) instrument(at int) *C.wormweekly_instrument {
	return &unsafe.Slice(own.instruments, int(own.counts.instruments))[at]
}

func (own *handles) recorder(at int) *C.wormweekly_recorder {
	return &unsafe.Slice(own.recorders, int(own.counts.recorders))[at]
}

func (own *handles) reader(at int) *C.wormweekly_reader {
	return &unsafe.Slice(own.readers, int(own.counts.readers))[at]
}

func (own *handles) guard(at int) *C.guarded {
	return &unsafe.Slice(own.guards, int(own.counts.instruments))[at]
}

// A place is where a call is at work: a recorder that was taken, on an instrument, and what is kept there. C gives the
// recorder back, if it is to.
type place struct {
	at, list *C.uint8_t
	taken    *C.uint32_t
	spent    *C.uint64_t
}

func (recorder *Recorder) place(on *Instrument, isGivenBack bool) place {
	own := recorder.run.handles
	shards := unsafe.Slice(own.shards, int(own.counts.recorders*own.counts.instruments))
	made := place{
		at:    (*C.uint8_t)(unsafe.Pointer(&shards[recorder.number*int(own.counts.instruments)+on.number])),
		spent: (*C.uint64_t)(unsafe.Pointer(&on.spent)),
	}
	if kept := recorder.kept[on.number]; kept != nil {
		made.list = (*C.uint8_t)(unsafe.Pointer(kept.keptList))
	}
	if isGivenBack {
		made.taken = (*C.uint32_t)(unsafe.Pointer(&recorder.taken))
		recorder.taken.Store(recorder.taken.Load()) // what was done until here comes before what the next one does
	}
	return made
}

// Given attributes, in memory of C: the room of a recorder, or, where they are many, their own.
type given struct {
	texts      *C.uint8_t
	attributes *C.wormweekly_attribute
	length     int
	count      int
	isOwned    bool
}

// The keys are compared with one another, so no more than 65 are given. Of so many a key is unknown or stands twice, a
// resource has fewer, and what follows could not mend that.
func most(attributes []Attr) []Attr {
	return attributes[:min(len(attributes), C.MOST_ATTRIBUTES)]
}

func (recorder *Recorder) give(attributes []Attr) given {
	attributes = most(attributes)
	own := recorder.run.handles
	length := lengthOf(attributes)
	if length > C.FEW_BYTES || len(attributes) > C.FEW_ATTRIBUTES {
		return giveMany(attributes)
	}
	room := &unsafe.Slice(own.rooms, int(own.counts.recorders))[recorder.number]
	made := given{texts: &room.texts[0], attributes: &room.attributes[0], length: length, count: len(attributes)}
	made.fill(attributes)
	return made
}

func giveMany(attributes []Attr) given { return givenAll(most(attributes)) }

func givenAll(attributes []Attr) given {
	made := given{length: lengthOf(attributes), count: len(attributes), isOwned: true}
	made.texts = (*C.uint8_t)(C.malloc(C.size_t(made.length) + 1))
	made.attributes = (*C.wormweekly_attribute)(C.calloc(C.size_t(len(attributes))+1, C.sizeof_wormweekly_attribute))
	made.fill(attributes)
	return made
}

func lengthOf(attributes []Attr) int {
	length := 0
	for at := range attributes {
		length += len(attributes[at].key) + len(attributes[at].text)
	}
	return length
}

func (made given) fill(attributes []Attr) {
	bytes := unsafe.Slice((*byte)(unsafe.Pointer(made.texts)), made.length)
	list := unsafe.Slice(made.attributes, len(attributes))
	for at := range attributes {
		one := &attributes[at]
		bytes = bytes[copy(bytes, one.key):]
		bytes = bytes[copy(bytes, one.text):]
		list[at] = C.wormweekly_attribute{key: C.size_t(len(one.key)), kind: C.size_t(one.kind),
			text: C.size_t(len(one.text)), whole: C.int64_t(one.whole)}
	}
}

func (made given) free() {
	if made.isOwned {
		C.free(unsafe.Pointer(made.texts))
		C.free(unsafe.Pointer(made.attributes))
	}
}

func record(by place, made given, value int64) uint32 {
	answer := C.record_given(by.at, by.list, by.taken, by.spent, made.texts, C.size_t(made.length), made.attributes,
		C.size_t(made.count), C.int64_t(value))
	made.free()
	return uint32(answer)
}

func recordSet(by place, set setKey, value int64) uint32 {
	return uint32(C.record_set(by.at, by.list, by.taken, by.spent, C.uint64_t(set.low), C.uint64_t(set.high),
		C.int64_t(value)))
}

func countIn(by place, set setKey) uint32 {
	return uint32(C.count_in(by.at, by.list, by.taken, by.spent, C.uint64_t(set.low), C.uint64_t(set.high)))
}

func countOut(by place, set setKey) uint32 {
	return uint32(C.count_out(by.at, by.list, by.taken, by.spent, C.uint64_t(set.low), C.uint64_t(set.high)))
}

func recordList(by place, list []prepared) (uint32, int) {
	done := C.record_list(by.at, by.list, by.taken, (*C.wormweekly_prepared)(unsafe.Pointer(&list[0])),
		C.size_t(len(list)))
	return uint32(done.answer), int(done.made)
}

func keep(by place, made given, value int64) (answer uint32, isDone bool) {
	done := C.keep_given(by.at, by.list, by.taken, made.texts, C.size_t(made.length), made.attributes,
		C.size_t(made.count), C.int64_t(value))
	made.free()
	return uint32(done.answer), done.is_done == 1
}

func makePlace(by place) bool { return C.make_place(by.at, by.list, by.taken) == 1 }

func makeKept(by place, closes bool) uint32 {
	if closes {
		return uint32(C.make_kept(by.at, by.list, by.taken, 1))
	}
	return uint32(C.make_kept(by.at, by.list, by.taken, 0))
}

func prepare(by place, made given) (setKey, uint32) {
	out := C.prepare_by(by.at, by.taken, made.texts, C.size_t(made.length), made.attributes, C.size_t(made.count))
	made.free()
	return setKey{uint64(out.low), uint64(out.high)}, uint32(out.answer)
}

// What a recording is refused for, of what it says, "" where that is in order. Any recorder tells.
func explain(on *Instrument, attributes []Attr, value int64) string {
	text, _ := askText(func(out *C.uint8_t, room C.size_t, length *C.size_t) C.uint32_t {
		recorder := on.run.take()
		made := recorder.give(attributes)
		defer made.free()
		by := recorder.place(on, true)
		return C.explain_by(by.at, by.taken, made.texts, C.size_t(made.length), made.attributes, C.size_t(made.count),
			C.int64_t(value), out, room, length)
	})
	return text
}

// Writes the remarks on two texts, or their fault.
func lint(catalogue, config string) (string, uint32) {
	first, firstLength := bytesOf(catalogue)
	second, secondLength := bytesOf(config)
	out := make([]byte, 4096)
	for {
		var length C.size_t
		answer := C.wormweekly_lint(first, firstLength, second, secondLength, (*C.uint8_t)(unsafe.Pointer(&out[0])),
			C.size_t(len(out)), &length)
		if int(length) <= len(out) {
			return string(out[:length]), uint32(answer)
		}
		out = make([]byte, length)
	}
}

func grant(on *Instrument, recorder int, amount uint64) uint32 {
	return uint32(C.grant_on(on.run.handles.guard(on.number), (*C.uint64_t)(unsafe.Pointer(&on.spent)),
		C.uint32_t(recorder), C.uint64_t(amount)))
}

func ask(by place, amount uint64) uint32 {
	return uint32(C.ask_by(by.at, by.list, by.taken, by.spent, C.uint64_t(amount)))
}

func askPart(by place, recorders int) uint32 {
	return uint32(C.ask_part(by.at, by.list, by.taken, by.spent, C.size_t(recorders)))
}

func budget(by place) (Budget, uint32) {
	var out C.wormweekly_budget_out
	answer := C.budget_by(by.at, by.list, by.taken, &out)
	return Budget{uint64(out.declared), uint64(out.granted), uint64(out.spent), uint64(out.left)}, uint32(answer)
}

func spare(own *handles, instrument int) (Spare, uint32) {
	var out C.wormweekly_spare_out
	answer := C.spare_on(own.guard(instrument), &out)
	return Spare{uint64(out.declared), uint64(out.granted), uint64(out.left)}, uint32(answer)
}

func closeInstrument(own *handles, instrument int) uint32 {
	return uint32(C.close_on(own.guard(instrument)))
}

func collect(own *handles, instrument, reader int, now uint64, keeps bool) uint32 {
	beside := C.int(0)
	if keeps {
		beside = 1
	}
	return uint32(C.collect_on(own.guard(instrument), own.reader(reader), C.uint64_t(now), beside))
}

func settle(own *handles, instrument int) (Total, uint32) {
	var out C.wormweekly_total
	answer := C.settle_on(own.guard(instrument), own.recorders, own.counts.recorders, &out)
	return totalOf(uint64(out.count), out.negative == 1, uint64(out.high), uint64(out.low)), uint32(answer)
}

// How often a thread waited for an instrument, and the longest such wait.
func waitsOn(own *handles, instrument int) (count, longest uint64) {
	var waits, nanoseconds C.uint64_t
	C.waits_on(own.guard(instrument), &waits, &nanoseconds)
	return uint64(waits), uint64(nanoseconds)
}

// Asks for bytes until there is room for all of them.
func askBytes(call func(out *C.uint8_t, room C.size_t, length *C.size_t) C.uint32_t) ([]byte, uint32) {
	out := make([]byte, 256)
	for {
		var length C.size_t
		answer := call((*C.uint8_t)(unsafe.Pointer(&out[0])), C.size_t(len(out)), &length)
		switch answer {
		case answerDone:
			return out[:length], answerDone
		case answerTooShort:
			out = make([]byte, length)
		default:
			return nil, uint32(answer)
		}
	}
}

func askText(call func(out *C.uint8_t, room C.size_t, length *C.size_t) C.uint32_t) (string, uint32) {
	out, answer := askBytes(call)
	return string(out), answer
}

// The kinds of names.
const (
	instrumentName = iota
	meterName
	recorderName
	readerName
)

// A name of the plan, "" where there is neither a recorder nor a reader to ask.
func name(own *handles, kind, number int) string {
	if own.counts.recorders == 0 {
		return nameByReader(own, kind, number)
	}
	text, _ := askText(func(out *C.uint8_t, room C.size_t, length *C.size_t) C.uint32_t {
		return C.wormweekly_name(own.recorder(0), C.uint32_t(kind), C.uint32_t(number), out, room, length)
	})
	return text
}

func nameByReader(own *handles, kind, number int) string {
	if own.counts.readers == 0 {
		return ""
	}
	text, _ := askText(func(out *C.uint8_t, room C.size_t, length *C.size_t) C.uint32_t {
		return C.wormweekly_reader_name(own.reader(0), C.uint32_t(kind), C.uint32_t(number), out, room, length)
	})
	return text
}

// The range of an instrument, that of all numbers where nobody records.
func rangeOf(own *handles, instrument int) (least, greatest int64) {
	out := C.wormweekly_range_out{least: math.MinInt64, greatest: math.MaxInt64}
	if own.counts.recorders > 0 {
		C.wormweekly_range(own.recorder(0), C.uint32_t(instrument), &out)
	}
	return int64(out.least), int64(out.greatest)
}

// How the streams of each instrument are made of recordings.
func aggregations(own *handles) [][]int {
	made := make([][]int, own.counts.instruments)
	var out C.wormweekly_plan_stream_out
	for number := C.size_t(0); own.counts.recorders > 0; number++ {
		if C.wormweekly_plan_stream(own.recorder(0), number, &out) != answerDone {
			break
		}
		made[out.instrument] = append(made[out.instrument], int(out.aggregation))
	}
	return made
}

func warnings(own *handles) string {
	if own.counts.recorders == 0 {
		return ""
	}
	text, _ := askText(func(out *C.uint8_t, room C.size_t, length *C.size_t) C.uint32_t {
		return C.wormweekly_warnings(own.recorder(0), out, room, length)
	})
	return text
}

func batchText(own *handles, reader int) (string, uint32) {
	return askText(func(out *C.uint8_t, room C.size_t, length *C.size_t) C.uint32_t {
		return C.wormweekly_text(own.reader(reader), out, room, length)
	})
}

// Writes the batches that a reader keeps, as a message or as a line.
func batchOTLP(own *handles, reader int, resource given, json int) ([]byte, uint32) {
	return askBytes(func(out *C.uint8_t, room C.size_t, length *C.size_t) C.uint32_t {
		return C.wormweekly_otlp(own.reader(reader), C.uint32_t(json), resource.texts, C.size_t(resource.length),
			resource.attributes, C.size_t(resource.count), out, room, length)
	})
}

// Writes the batches that a reader keeps as lines of a page.
func batchPage(own *handles, reader int, dialect Dialect) ([]byte, uint32) {
	return askBytes(func(out *C.uint8_t, room C.size_t, length *C.size_t) C.uint32_t {
		return C.wormweekly_prometheus(own.reader(reader), C.uint32_t(dialect), out, room, length)
	})
}

func target(resource given, dialect Dialect) ([]byte, uint32) {
	return askBytes(func(out *C.uint8_t, room C.size_t, length *C.size_t) C.uint32_t {
		return C.wormweekly_prometheus_target(C.uint32_t(dialect), resource.texts, C.size_t(resource.length),
			resource.attributes, C.size_t(resource.count), out, room, length)
	})
}

// Whether the streams of a reader can stand in a page; a fault is told as a text.
func expose(own *handles, reader int) (uint32, string) {
	fault := make([]byte, 4096)
	var length C.size_t
	out := (*C.uint8_t)(unsafe.Pointer(&fault[0]))
	answer := C.wormweekly_expose(own.reader(reader), out, C.size_t(len(fault)), &length)
	return uint32(answer), string(fault[:min(int(length), len(fault))])
}

// Whether an instrument means what is declared; a fault is told as a text. Any recorder tells.
func expect(on *Instrument, kind Kind, declared []Attr, optional uint32) (uint32, string) {
	made := givenAll(declared)
	defer made.free()
	fault := make([]byte, 4096)
	for {
		var length C.size_t
		recorder := on.run.take()
		by := recorder.place(on, true)
		answer := C.expect_by(by.at, by.taken, C.uint32_t(kind), made.texts, C.size_t(made.length), made.attributes,
			C.size_t(made.count), C.uint32_t(optional), (*C.uint8_t)(unsafe.Pointer(&fault[0])), C.size_t(len(fault)), &length)
		if int(length) <= len(fault) {
			return uint32(answer), string(fault[:length])
		}
		fault = make([]byte, length)
	}
}

// Reads the batch that a reader keeps.
func batchOf(own *handles, reader int) (Batch, uint32) {
	var out C.wormweekly_batch_out
	if answer := C.wormweekly_batch(own.reader(reader), &out); answer != answerDone {
		return Batch{}, uint32(answer)
	}
	made := Batch{Instrument: int(out.instrument), Start: uint64(out.start), Time: uint64(out.time)}
	for at := 0; at < int(out.streams); at++ {
		stream, answer := streamOf(own.reader(reader), C.size_t(at))
		if answer != answerDone {
			return Batch{}, answer
		}
		made.Streams = append(made.Streams, stream)
	}
	return made, answerDone
}

func streamOf(reader *C.wormweekly_reader, at C.size_t) (Stream, uint32) {
	var out C.wormweekly_stream_out
	if answer := C.wormweekly_stream(reader, at, &out); answer != answerDone {
		return Stream{}, uint32(answer)
	}
	made := Stream{Kind: Kind(out.kind), IsDelta: out.delta == 1}
	all := []*string{&made.Name, &made.Unit, &made.Description, &made.Meter, &made.Version, &made.SchemaURL}
	for kind, text := range all {
		own, answer := askText(func(out *C.uint8_t, room C.size_t, length *C.size_t) C.uint32_t {
			return C.wormweekly_stream_text(reader, at, C.uint32_t(kind), out, room, length)
		})
		if answer != answerDone {
			return Stream{}, answer
		}
		*text = own
	}
	boundaries := make([]int64, out.boundaries+1)
	first := (*C.int64_t)(unsafe.Pointer(&boundaries[0]))
	if answer := C.wormweekly_boundaries(reader, at, first, C.size_t(out.boundaries)); answer != answerDone {
		return Stream{}, uint32(answer)
	}
	made.Boundaries = boundaries[:out.boundaries]
	for number := 0; number < int(out.points); number++ {
		point, answer := pointOf(reader, at, C.size_t(number), int(out.aggregation))
		if answer != answerDone {
			return Stream{}, answer
		}
		made.Points = append(made.Points, point)
	}
	return made, answerDone
}

func pointOf(reader *C.wormweekly_reader, stream, number C.size_t, aggregation int) (Point, uint32) {
	var out C.wormweekly_point_out
	if answer := C.wormweekly_point(reader, stream, number, &out); answer != answerDone {
		return Point{}, uint32(answer)
	}
	counts := make([]uint64, out.buckets+1)
	first := (*C.uint64_t)(unsafe.Pointer(&counts[0]))
	if answer := C.wormweekly_buckets(reader, stream, number, first, C.size_t(out.buckets)); answer != answerDone {
		return Point{}, uint32(answer)
	}
	made := Point{IsOverflow: out.is_series == 0}
	for key, entry := range out.set {
		if entry == 0 {
			continue
		}
		attribute, answer := attributeOf(reader, stream, C.size_t(key), entry)
		if answer != answerDone {
			return Point{}, answer
		}
		made.Attributes = append(made.Attributes, attribute)
	}
	switch aggregation {
	case aggregatedSum:
		made.Value = Sum(out.value)
	case aggregatedLast:
		made.Value = Last(out.value)
	default:
		made.Value = Buckets{Count: uint64(out.count), Counts: counts[:out.buckets], HasSum: out.has_value == 1,
			Sum: int64(out.value), Least: int64(out.least), Greatest: int64(out.greatest)}
	}
	return made, answerDone
}

func attributeOf(reader *C.wormweekly_reader, stream, key C.size_t, entry C.uint16_t) (Attr, uint32) {
	name, answer := askText(func(out *C.uint8_t, room C.size_t, length *C.size_t) C.uint32_t {
		return C.wormweekly_key(reader, stream, key, out, room, length)
	})
	if answer != answerDone {
		return Attr{}, answer
	}
	var value C.wormweekly_attribute
	text, answer := askText(func(out *C.uint8_t, room C.size_t, length *C.size_t) C.uint32_t {
		answer := C.wormweekly_value(reader, stream, key, entry, &value, out, room)
		*length = value.text
		return answer
	})
	return Attr{key: name, kind: kind(value.kind), text: text, whole: int64(value.whole)}, answer
}
