// Package otlp pushes metrics to an OpenTelemetry collector, as OTLP over HTTP.
//
//	exporter, err := otlp.New(metrics, reader)
//	defer exporter.Shutdown(ctx)
//
// Where nothing else is said, the environment says where to. Each collection is one post. What a collector did not take
// waits, in order, and is posted again after the pause that it asks for, else after pauses that grow; what it refuses
// for good is dropped, counted and told. The exporter rolls over before a budget is spent. A post that timed out may
// have arrived, so that a delta window may arrive twice.
package otlp

import (
	"bytes"
	"compress/gzip"
	"context"
	cryptorand "crypto/rand"
	"encoding/binary"
	"errors"
	"fmt"
	"io"
	"math/rand"
	"net/http"
	"sync"
	"time"

	"wormweekly.example/wormweekly"
)

const (
	mostRead     = 64 << 10 // of an answer
	longestPause = time.Minute
	longestAsked = 24 * time.Hour
	longestSleep = time.Second // between two looks at what is left of the budgets
)

// ErrWaiting says that a collector has not answered for all collections yet.
var ErrWaiting = errors.New("otlp: a collector has not answered for all collections")

// Counts are what became of collections: how many were taken; how many were refused for good, or were the oldest of
// more than there is room for; how many wait; and how many points a collector says it did not take.
type Counts struct{ Posted, Dropped, Waiting, Rejected uint64 }

// An Option says more of how metrics are pushed.
type Option func(*Exporter)

// With says where metrics go, in place of the environment.
func With(settings Settings) Option {
	return func(own *Exporter) { own.settings, own.isSet = settings, true }
}

// RollOverBelow has the metrics roll over where less than this part of a budget is left. What ended is given to a call,
// so that other readers collect it. If it is not said, they roll over below 0.5 where they have no other reader.
func RollOverBelow(part float64, ended func(*wormweekly.Ended)) Option {
	return func(own *Exporter) { own.below, own.ended = part, ended }
}

// OnFault has told what goes wrong, but not twice in turn.
func OnFault(tell func(error)) Option { return func(own *Exporter) { own.tell = tell } }

// MostWaiting is how many bytes wait at most, 64 MiB if it is not said.
func MostWaiting(bytes int) Option { return func(own *Exporter) { own.mostWaiting = bytes } }

// An Exporter collects by a reader at each interval, and posts. No one else collects by this reader.
type Exporter struct {
	metrics     *wormweekly.Metrics
	reader      int
	settings    Settings
	isSet       bool
	below       float64
	ended       func(*wormweekly.Ended)
	tell        func(error)
	mostWaiting int

	client   *http.Client
	random   *rand.Rand
	resource []wormweekly.Attr
	stop     chan struct{}
	stopped  chan struct{}
	once     sync.Once

	turn        chan struct{} // empty while it collects and posts
	due         time.Time
	pausedUntil time.Time
	pause       time.Duration
	told        string

	mutex   sync.Mutex // of what follows
	waiting [][]byte
	size    int
	counts  Counts
}

// New begins. The error says what of the environment or of the resource is not taken.
func New(metrics *wormweekly.Metrics, reader *wormweekly.Reader, options ...Option) (*Exporter, error) {
	own := &Exporter{metrics: metrics, reader: reader.Number(), mostWaiting: 64 << 20,
		tell: func(error) {}, ended: func(*wormweekly.Ended) {},
		stop: make(chan struct{}), stopped: make(chan struct{}), turn: make(chan struct{}, 1)}
	own.turn <- struct{}{}
	if len(metrics.Readers) == 1 {
		own.below = 0.5
	}
	for _, option := range options {
		option(own)
	}
	if !own.isSet {
		settings, err := OfEnvironment()
		if err != nil {
			return nil, err
		}
		own.settings = settings
	}
	own.settings.fill()
	own.client = &http.Client{Timeout: own.settings.Timeout,
		// A post that is sent elsewhere might arrive there without its body.
		CheckRedirect: func(*http.Request, []*http.Request) error { return http.ErrUseLastResponse }}
	id := make([]byte, 16)
	if _, err := cryptorand.Read(id); err != nil {
		return nil, err
	}
	own.random = rand.New(rand.NewSource(int64(binary.LittleEndian.Uint64(id))))
	own.resource = lastOfEach(append([]wormweekly.Attr{
		wormweekly.String("service.name", "unknown_service"),
		wormweekly.String("service.instance.id", uuidOf(id)),
		wormweekly.String("telemetry.sdk.language", "go"),
		wormweekly.String("telemetry.sdk.name", "wormweekly"),
	}, own.settings.Resource...))
	if err := own.collect(metrics, time.Now()); err != nil {
		return nil, err
	}
	go own.run()
	return own, nil
}

// The UUID of 16 random bytes.
func uuidOf(id []byte) string {
	id[6], id[8] = id[6]&0x0f|0x40, id[8]&0x3f|0x80
	return fmt.Sprintf("%x-%x-%x-%x-%x", id[:4], id[4:6], id[6:8], id[8:10], id[10:])
}

// Counts answers what became of collections.
func (own *Exporter) Counts() Counts {
	own.mutex.Lock()
	defer own.mutex.Unlock()
	made := own.counts
	made.Waiting = uint64(len(own.waiting))
	return made
}

// Flush collects, and posts what waits unless a pause is asked for. Where not all was answered, the error is
// ErrWaiting.
func (own *Exporter) Flush(ctx context.Context) error {
	return own.inTurn(ctx, func() error {
		if err := own.collect(own.metrics, time.Now()); err != nil {
			return err
		}
		return own.push(ctx)
	})
}

// Waits for its turn, as long as the context allows.
func (own *Exporter) inTurn(ctx context.Context, call func() error) error {
	select {
	case <-own.turn:
	case <-ctx.Done():
		return fmt.Errorf("%w: %v", ErrWaiting, ctx.Err())
	}
	defer func() { own.turn <- struct{}{} }()
	return call()
}

// Shutdown ends it, collects a last time, and posts until all is answered or the context ends.
func (own *Exporter) Shutdown(ctx context.Context) error {
	own.once.Do(func() { close(own.stop) })
	select {
	case <-own.stopped:
	case <-ctx.Done():
		return ctx.Err()
	}
	err := own.Flush(ctx)
	for errors.Is(err, ErrWaiting) {
		if ctx.Err() != nil {
			return fmt.Errorf("%w: %v", ErrWaiting, ctx.Err())
		}
		err = own.inTurn(ctx, func() error { return own.pushAfterPause(ctx) })
	}
	return err
}

func (own *Exporter) pushAfterPause(ctx context.Context) error {
	select {
	case <-time.After(time.Until(own.pausedUntil)):
		return own.push(ctx)
	case <-ctx.Done():
		return fmt.Errorf("%w: %v", ErrWaiting, ctx.Err())
	}
}

func (own *Exporter) run() {
	defer close(own.stopped)
	sleep := longestSleep
	if own.settings.Interval < sleep {
		sleep = own.settings.Interval
	}
	ticker := time.NewTicker(sleep)
	defer ticker.Stop()
	for {
		select {
		case <-own.stop:
			return
		case <-ticker.C:
			own.takeTurn()
		}
	}
}

func (own *Exporter) takeTurn() {
	_ = own.inTurn(context.Background(), func() error {
		if err := own.turned(); err != nil && !errors.Is(err, ErrWaiting) {
			own.say(err)
		}
		return nil
	})
}

func (own *Exporter) turned() error {
	left, err := own.metrics.PartLeft()
	if err != nil {
		return err
	}
	if left < own.below {
		if err := own.rollOver(); err != nil {
			return err
		}
	}
	if !time.Now().Before(own.due) {
		if err := own.collect(own.metrics, time.Now()); err != nil {
			return err
		}
	}
	return own.push(context.Background())
}

func (own *Exporter) rollOver() error {
	now := time.Now()
	ended, err := own.metrics.RollOver(now)
	if err != nil {
		return err
	}
	err = own.collect(ended.Metrics, now)
	own.ended(ended)
	return err
}

func (own *Exporter) collect(metrics *wormweekly.Metrics, now time.Time) error {
	own.due = time.Now().Add(own.settings.Interval)
	body, err := metrics.OTLP(metrics.Readers[own.reader], now, own.resource...)
	if err != nil {
		return err
	}
	if len(body) > 0 {
		own.keep(own.packed(body))
	}
	return nil
}

func (own *Exporter) packed(body []byte) []byte {
	if !own.settings.IsCompressed {
		return body
	}
	var out bytes.Buffer
	packer := gzip.NewWriter(&out)
	_, _ = packer.Write(body) // into memory
	_ = packer.Close()
	return out.Bytes()
}

func (own *Exporter) keep(body []byte) {
	own.mutex.Lock()
	own.waiting, own.size = append(own.waiting, body), own.size+len(body)
	dropped := own.counts.Dropped
	for own.size > own.mostWaiting {
		own.forget()
		own.counts.Dropped++
	}
	isDropped := dropped < own.counts.Dropped
	own.mutex.Unlock()
	if isDropped {
		own.say(errors.New("a collection is dropped: more waits than there is room for"))
	}
}

// Forgets the first one that waits.
func (own *Exporter) forget() {
	own.size -= len(own.waiting[0])
	own.waiting[0] = nil
	own.waiting = own.waiting[1:]
}

func (own *Exporter) first() ([]byte, bool) {
	own.mutex.Lock()
	defer own.mutex.Unlock()
	if len(own.waiting) == 0 {
		return nil, false
	}
	return own.waiting[0], true
}

func (own *Exporter) push(ctx context.Context) error {
	for {
		body, is := own.first()
		if !is {
			return nil
		}
		if time.Now().Before(own.pausedUntil) {
			return ErrWaiting
		}
		if err := own.post(ctx, body); err != nil {
			own.say(fmt.Errorf("not taken, and tried again: %w", err))
			return ErrWaiting
		}
	}
}

// Posts the first one that waits. Where the answer is final, it waits no longer.
func (own *Exporter) post(ctx context.Context, body []byte) error {
	request, err := http.NewRequestWithContext(ctx, http.MethodPost, own.settings.Endpoint, bytes.NewReader(body))
	if err != nil {
		own.settle(func(counts *Counts) { counts.Dropped++ })
		own.say(fmt.Errorf("a collection is dropped: %w", err))
		return nil
	}
	request.Header.Set("User-Agent", "wormweekly-go")
	for name, value := range own.settings.Headers {
		request.Header.Set(name, value)
	}
	request.Header.Set("Content-Type", "application/x-protobuf")
	if own.settings.IsCompressed {
		request.Header.Set("Content-Encoding", "gzip")
	}
	answer, err := own.client.Do(request)
	if err != nil {
		own.wait(0)
		return err
	}
	defer answer.Body.Close()
	return own.answered(answer)
}

func (own *Exporter) answered(answer *http.Response) error {
	switch answer.StatusCode {
	case http.StatusTooManyRequests, http.StatusBadGateway, http.StatusServiceUnavailable, http.StatusGatewayTimeout:
		own.wait(askedPause(answer.Header.Get("Retry-After")))
		return errors.New(answer.Status)
	case http.StatusOK:
		told, err := io.ReadAll(io.LimitReader(answer.Body, mostRead))
		if err != nil {
			own.wait(0)
			return err
		}
		rejected, why := partialSuccess(told)
		own.settle(func(counts *Counts) { counts.Posted, counts.Rejected = counts.Posted+1, counts.Rejected+rejected })
		if rejected > 0 || why != "" {
			own.say(fmt.Errorf("%d points are rejected: %s", rejected, why))
		} else {
			own.told = ""
		}
	default: // any other answer is final
		own.settle(func(counts *Counts) { counts.Dropped++ })
		own.say(fmt.Errorf("a collection is dropped: %s %s", answer.Status, wordsOf(answer.Body)))
	}
	own.pause, own.pausedUntil = 0, time.Time{}
	return nil
}

func (own *Exporter) settle(count func(*Counts)) {
	own.mutex.Lock()
	defer own.mutex.Unlock()
	own.forget()
	count(&own.counts)
}

func (own *Exporter) wait(asked time.Duration) {
	own.pause *= 2
	if own.pause < time.Second {
		own.pause = time.Second
	}
	if own.pause > longestPause {
		own.pause = longestPause
	}
	// Not all that were refused at once come again at once.
	pause := own.pause/2 + time.Duration(own.random.Int63n(int64(own.pause/2)))
	if asked > pause {
		pause = asked
	}
	own.pausedUntil = time.Now().Add(pause)
}

// Tells what was not told just before.
func (own *Exporter) say(err error) {
	if told := err.Error(); told != own.told {
		own.told = told
		own.tell(fmt.Errorf("otlp: %s: %w", own.settings.Endpoint, err))
	}
}
