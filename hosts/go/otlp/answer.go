package otlp

import (
	"encoding/binary"
	"io"
	"net/http"
	"strconv"
	"strings"
	"time"
	"unicode"
)

// The pause that a header Retry-After asks for, as seconds or as a date.
func askedPause(after string) time.Duration {
	pause := time.Duration(0)
	if seconds, err := strconv.ParseUint(after, 10, 31); err == nil {
		pause = time.Duration(seconds) * time.Second
	} else if date, err := http.ParseTime(after); err == nil {
		pause = time.Until(date)
	}
	if pause > longestAsked {
		return longestAsked
	}
	return pause
}

// The first words of an answer, a text or a message of protobuf.
func wordsOf(answer io.Reader) string {
	words, _ := io.ReadAll(io.LimitReader(answer, 200))
	return strings.Map(func(one rune) rune {
		if one == unicode.ReplacementChar || !unicode.IsPrint(one) {
			return -1
		}
		return one
	}, string(words))
}

// How many points a collector says it rejected, and why: both of the first field of what it answers in protobuf.
func partialSuccess(answer []byte) (rejected uint64, why string) {
	var partial []byte
	eachField(answer, func(field, number uint64, text []byte) {
		if field == 1 {
			partial = text
		}
	})
	eachField(partial, func(field, number uint64, text []byte) {
		switch {
		case field == 1 && text == nil:
			rejected = number
		case field == 2:
			why = string(text)
		}
	})
	return rejected, why
}

// Calls for each field of a message of protobuf, as far as they are numbers or bytes.
func eachField(message []byte, call func(field, number uint64, text []byte)) {
	for {
		tag, length := binary.Uvarint(message)
		if length <= 0 {
			return
		}
		message = message[length:]
		number, length := binary.Uvarint(message)
		if length <= 0 {
			return
		}
		message = message[length:]
		switch {
		case tag&7 == 0:
			call(tag>>3, number, nil)
		case tag&7 == 2 && number <= uint64(len(message)):
			call(tag>>3, 0, message[:number:number])
			message = message[number:]
		default:
			return
		}
	}
}
