package wormweekly

import "fmt"

// A Refusal is why a call is refused. What is refused has changed nothing. Errors of this package wrap one, so that
// errors.Is(err, ErrBudget) tells; those about attributes wrap ErrAttributes too.
type Refusal struct {
	// Name is the refusal in one word.
	Name     string
	sentence string
	family   *Refusal
}

// Error says why.
func (refusal *Refusal) Error() string { return "wormweekly: " + refusal.sentence }

// Unwrap answers the refusal that is said of all of a family.
func (refusal *Refusal) Unwrap() error {
	if refusal.family == nil {
		return nil
	}
	return refusal.family
}

// The attributes are not those that the instrument declares.
var (
	ErrAttributes   = &Refusal{Name: "Attributes", sentence: "the attributes are not those of the instrument"}
	ErrDuplicateKey = &Refusal{"DuplicateKey", "a key stands twice among the attributes", ErrAttributes}
	ErrUnknownKey   = &Refusal{"UnknownKey", "the instrument does not declare a key", ErrAttributes}
	ErrUnknownValue = &Refusal{"UnknownValue", "a key does not declare its value", ErrAttributes}
	ErrMissingKey   = &Refusal{"MissingKey", "a required key is missing", ErrAttributes}
	ErrCombination  = &Refusal{"Combination", "the instrument does not allow this combination of values", ErrAttributes}
	ErrNoText       = &Refusal{"NoText", "a text is no UTF-8", ErrAttributes}
)

// A recording, a grant or a collection is refused.
var (
	ErrRange             = &Refusal{Name: "ValueRange", sentence: "the value is outside the instrument's range"}
	ErrClosed            = &Refusal{Name: "Closed", sentence: "the instrument is closed"}
	ErrBudget            = &Refusal{Name: "Budget", sentence: "the recorder's budget is spent"}
	ErrNoSpare           = &Refusal{Name: "NoSpare", sentence: "less is left of the spare budget than is asked for"}
	ErrStranger          = &Refusal{Name: "Stranger", sentence: "the recorder or reader is of another run"}
	ErrUnknownInstrument = &Refusal{Name: "UnknownInstrument", sentence: "the plan has no such instrument"}
	ErrUnknownRecorder   = &Refusal{Name: "UnknownRecorder", sentence: "the instrument has no such recorder"}
	ErrUnit              = &Refusal{Name: "Unit", sentence: "a unit of time is not above 0"}
	ErrInUse             = &Refusal{Name: "InUse", sentence: "another goroutine is using the recorder"}
	ErrNotLent           = &Refusal{Name: "NotLent", sentence: "the pool did not lend this recorder"}
	ErrNoPool            = &Refusal{Name: "NoPool", sentence: "NewPool did not make this pool, so that it lends nothing"}
	ErrMemory            = &Refusal{Name: "Memory", sentence: "out of memory"}
	ErrTooMany           = &Refusal{Name: "TooMany", sentence: "a resource has more than 64 attributes"}
	ErrEmptyKey          = &Refusal{Name: "EmptyKey", sentence: "an attribute of a resource has an empty key"}
	ErrBadLabel          = &Refusal{Name: "BadLabel", sentence: "a key of a resource has no letter and no digit, so that its label in a page says nothing"}
	ErrLabelCollision    = &Refusal{Name: "LabelCollision", sentence: "two keys of a resource have one label in a page"}
	ErrNoBatch           = &Refusal{Name: "NoBatch", sentence: "nothing was collected yet"}
)

// Nothing is opened, found or settled.
var (
	ErrFault           = &Refusal{Name: "Fault", sentence: "the catalogue or the config is at fault"}
	ErrNotExposed      = &Refusal{Name: "NotExposed", sentence: "the streams of the reader can not stand in a page"}
	ErrMeaning         = &Refusal{Name: "Meaning", sentence: "an instrument is not what the program was made for"}
	ErrUnknownName     = &Refusal{Name: "UnknownName", sentence: "there is not one of this name"}
	ErrRecorderMissing = &Refusal{Name: "RecorderMissing", sentence: "some recorder is missing"}
	ErrAuditMismatch   = &Refusal{Name: "AuditMismatch", sentence: "an instrument is not what its recorders were told"}
)

var byAnswer = map[uint32]*Refusal{
	1:   ErrUnknownInstrument,
	2:   ErrUnknownRecorder,
	3:   ErrDuplicateKey,
	4:   ErrUnknownKey,
	5:   ErrUnknownValue,
	6:   ErrMissingKey,
	7:   ErrRange,
	8:   ErrClosed,
	9:   ErrBudget,
	11:  ErrMemory,
	12:  ErrStranger,
	13:  ErrCombination,
	14:  ErrNoSpare,
	101: ErrNoText,
	103: ErrFault,
	104: ErrRecorderMissing,
	105: ErrAuditMismatch,
	106: ErrNoBatch,
	107: ErrTooMany,
	108: ErrEmptyKey,
	110: ErrBadLabel,
	111: ErrLabelCollision,
}

var errOther = &Refusal{Name: "Other", sentence: "the library answered a number that this package does not know"}

// The refusal that an answer is.
func refusalOf(answer uint32) *Refusal {
	if refusal, is := byAnswer[answer]; is {
		return refusal
	}
	return errOther
}

// Makes an error of an answer, nil where it is 0.
func errorOf(answer uint32) error {
	if answer == answerDone {
		return nil
	}
	if refusal := refusalOf(answer); refusal != errOther {
		return refusal
	}
	return fmt.Errorf("%w: %d", errOther, answer)
}

// The same, with the name of the instrument that it is about.
func errorOn(instrument *Instrument, answer uint32) error {
	if answer == answerDone {
		return nil
	}
	return fmt.Errorf("%w (instrument %q)", errorOf(answer), instrument.name)
}

// The same with what attributes and a value are refused for, where that is it. There has to be a recorder.
func errorSaid(instrument *Instrument, answer uint32, attributes []Attr, value int64) error {
	refusal, is := byAnswer[answer]
	if is && (refusal.family == ErrAttributes || refusal == ErrRange) {
		if said := explain(instrument, attributes, value); said != "" {
			return fmt.Errorf("%w: %s", refusal, said)
		}
	}
	return errorOn(instrument, answer)
}

// A ListError says after how many recordings of a list the next one was refused. These are made.
type ListError struct {
	Made int
	Err  error
}

// Error says where and why.
func (list *ListError) Error() string {
	return fmt.Sprintf("after %d recordings: %v", list.Made, list.Err)
}

// Unwrap answers why.
func (list *ListError) Unwrap() error { return list.Err }
