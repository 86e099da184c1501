package wormweekly

import "math/big"

// A Batch is what a reader collected of an instrument, from a start to a time, both in nanoseconds since 1970.
type Batch struct {
	Instrument  int
	Start, Time uint64
	Streams     []Stream
}

// A Stream is one of a batch, with its points. Its boundaries are those of a histogram.
type Stream struct {
	Name, Unit, Description   string
	Meter, Version, SchemaURL string
	Kind                      Kind
	IsDelta                   bool
	Boundaries                []int64
	Points                    []Point
}

// A Kind is the kind of an instrument.
type Kind int

// The kinds of instruments.
const (
	Counter Kind = iota
	UpDownCounter
	Histogram
	Gauge
)

// A Point is what is reported of one series. A certified plan has no overflow point.
type Point struct {
	Attributes []Attr
	// Value is a Sum, a Last or Buckets.
	Value      any
	IsOverflow bool
}

// A Sum is the sum of the values that were recorded.
type Sum int64

// A Last is the value that was recorded last.
type Last int64

// Buckets are those of a histogram: how many values there are, and in each of them; their sum, where there is one; the
// least and the greatest.
type Buckets struct {
	Count           uint64
	Counts          []uint64
	HasSum          bool
	Sum             int64
	Least, Greatest int64
}

// A Total is what an instrument comes to: how many recordings were accepted, those that Bound added up too, and the sum
// of their values.
type Total struct {
	Count uint64
	Sum   *big.Int
}

// A Budget is how many recordings a recorder may make on an instrument, declared and granted; how many it made; what is
// left.
type Budget struct{ Declared, Granted, Spent, Left uint64 }

// A Spare is how many recordings may be granted on an instrument beside budgets; how many were granted; what is left.
type Spare struct{ Declared, Granted, Left uint64 }

func totalOf(count uint64, isNegative bool, high, low uint64) Total {
	sum := new(big.Int).SetUint64(high)
	sum.Lsh(sum, 64).Or(sum, new(big.Int).SetUint64(low))
	if isNegative {
		sum.Neg(sum)
	}
	return Total{Count: count, Sum: sum}
}

func min(a, b int) int {
	if a < b {
		return a
	}
	return b
}
