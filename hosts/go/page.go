package wormweekly

import (
	"fmt"
	"math"
	"strconv"
	"strings"
	"time"
)

// A Dialect is how a page for Prometheus is written.
type Dialect uint32

// The dialects: the text format 0.0.4, OpenMetrics 1.0, and that with lines `_created`.
const (
	Text Dialect = iota
	OpenMetrics
	OpenMetricsCreated
)

// Accepted is the dialect for whoever asks with this header Accept: OpenMetrics where it is named, with no less weight
// than plain text.
func Accepted(accept string) Dialect {
	var openMetrics, text float64
	for _, one := range strings.Split(strings.ToLower(accept), ",") {
		words := strings.Split(one, ";")
		switch weight := weightOf(words[1:]); strings.TrimSpace(words[0]) {
		case "application/openmetrics-text":
			openMetrics = math.Max(openMetrics, weight)
		case "text/plain":
			text = math.Max(text, weight)
		}
	}
	if openMetrics > 0 && openMetrics >= text {
		return OpenMetrics
	}
	return Text
}

// AcceptsGzip tells whether whoever asks with this header Accept-Encoding takes a page that is packed by gzip.
func AcceptsGzip(accept string) bool {
	var all, packed float64 = 0, -1
	for _, one := range strings.Split(strings.ToLower(accept), ",") {
		words := strings.Split(one, ";")
		switch weight := weightOf(words[1:]); strings.TrimSpace(words[0]) {
		case "gzip", "x-gzip":
			packed = math.Max(packed, weight)
		case "*":
			all = math.Max(all, weight)
		}
	}
	return packed > 0 || packed < 0 && all > 0
}

// The weight that a part of such a header has; none, where it says what is no weight.
func weightOf(parameters []string) float64 {
	for _, one := range parameters {
		if said := strings.TrimPrefix(strings.TrimSpace(one), "q="); said != strings.TrimSpace(one) {
			weight, err := strconv.ParseFloat(said, 64)
			if err != nil || !(weight >= 0 && weight <= 1) {
				return 0
			}
			return weight
		}
	}
	return 1
}

// ContentType is what a page is served as.
func (dialect Dialect) ContentType() string {
	if dialect == Text {
		return "text/plain; version=0.0.4; charset=utf-8"
	}
	return "application/openmetrics-text; version=1.0.0; charset=utf-8"
}

// Expose says whether the streams of a reader can stand in a page: a server would hold each sample, and take none for
// another. Where not, the error wraps ErrNotExposed and tells the first fault. Ask before anything is recorded.
func (reader *Reader) Expose() error {
	reader.mutex.Lock()
	defer reader.mutex.Unlock()
	answer, fault := expose(reader.run.handles, reader.number)
	if answer == answerFault {
		return fmt.Errorf("%w: %s", ErrNotExposed, fault)
	}
	return errorOf(answer)
}

// Prometheus collects an instrument as Collect does, and answers its lines of a page. Metrics.Page has a whole one,
// where instruments of one name in several meters stand together.
func (reader *Reader) Prometheus(instrument *Instrument, now time.Time, dialect Dialect) ([]byte, error) {
	reader.mutex.Lock()
	defer reader.mutex.Unlock()
	if err := reader.collect(instrument, now); err != nil {
		return nil, err
	}
	lines, answer := batchPage(reader.run.handles, reader.number, dialect)
	return lines, errorOn(instrument, answer)
}

// Page is a page for Prometheus of all instruments, collected by a cumulative reader, with the attributes of the
// resource as target_info.
func (metrics *Metrics) Page(reader *Reader, now time.Time, dialect Dialect, resource ...Attr) ([]byte, error) {
	of := giveMany(resource)
	defer of.free()
	about, answer := target(of, dialect)
	if answer != answerDone {
		return nil, errorOf(answer)
	}
	lines, err := reader.lines(metrics, now, dialect)
	if err != nil {
		return nil, err
	}
	page := append(about, lines...)
	if dialect != Text {
		page = append(page, "# EOF\n"...)
	}
	return page, nil
}

// Collects all instruments, without the batches that are kept, and answers their lines.
func (reader *Reader) lines(metrics *Metrics, now time.Time, dialect Dialect) ([]byte, error) {
	reader.mutex.Lock()
	defer reader.mutex.Unlock()
	if err := reader.collectAll(metrics, now, false); err != nil {
		return nil, err
	}
	lines, answer := batchPage(reader.run.handles, reader.number, dialect)
	if answer == answerDone {
		reader.unsent = false
	}
	return lines, errorOf(answer)
}
