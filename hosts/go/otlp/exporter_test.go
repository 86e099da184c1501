package otlp

import (
	"bytes"
	"compress/gzip"
	"context"
	"errors"
	"io"
	"net"
	"net/http"
	"net/http/httptest"
	"strings"
	"sync"
	"testing"
	"time"

	"wormweekly.example/wormweekly"
)

const catalogue = `format = 1
[[meter]]
name = 'shop'
[[meter.instrument]]
name = 'orders'
kind = 'counter'
range = [1, 100]
[[recorder]]
name = 'till'
budget = [{ instrument = 0, amount = 10 }]
`

const config = "format = 1\n[[reader]]\nname = 'otlp'\ntemporality = { counter = 'delta', histogram = 'delta' }\n"

// An answer of a collector.
type answer struct {
	status  int
	headers map[string]string
	body    string
}

var done = answer{status: 200}

type post struct {
	path    string
	headers http.Header
	body    []byte
}

// A collector gives the answers in turn, the last one for ever, and keeps what it was posted.
type collector struct {
	mutex   sync.Mutex
	answers []answer
	posts   []post
}

func (own *collector) ServeHTTP(writer http.ResponseWriter, request *http.Request) {
	body, _ := io.ReadAll(request.Body)
	own.mutex.Lock()
	defer own.mutex.Unlock()
	own.posts = append(own.posts, post{request.Method + " " + request.URL.Path, request.Header, body})
	now := own.answers[0]
	if len(own.answers) > 1 {
		own.answers = own.answers[1:]
	}
	for name, value := range now.headers {
		writer.Header().Set(name, value)
	}
	writer.WriteHeader(now.status)
	_, _ = io.WriteString(writer, now.body)
}

// A run that is pushed to a collector of such answers.
func pushing(t *testing.T, settings Settings, answers ...answer) (*collector, *Exporter, *wormweekly.Instrument) {
	t.Helper()
	own := &collector{answers: answers}
	server := httptest.NewServer(own)
	t.Cleanup(server.Close)
	settings.Endpoint, settings.Interval = server.URL+"/v1/metrics", time.Hour
	metrics, err := wormweekly.Open(catalogue, config)
	if err != nil {
		t.Fatal(err)
	}
	exporter, err := New(metrics, metrics.Readers[0], With(settings))
	if err != nil {
		t.Fatal(err)
	}
	return own, exporter, metrics.Instruments[0]
}

// Collects, and posts after any pause.
func (own *Exporter) again(t *testing.T) error {
	t.Helper()
	<-own.turn
	own.pausedUntil = time.Time{}
	own.turn <- struct{}{}
	return own.Flush(context.Background())
}

func expect(t *testing.T, got, want any) {
	t.Helper()
	if got != want {
		t.Errorf("%v, and not %v", got, want)
	}
}

func TestAPost(t *testing.T) {
	own, exporter, orders := pushing(t, Settings{IsCompressed: true, Headers: map[string]string{"x-key": "a b"}}, done)
	orders.Add(2)
	expect(t, exporter.Shutdown(context.Background()), nil)
	expect(t, exporter.Shutdown(context.Background()), nil)
	expect(t, exporter.Counts(), Counts{Posted: 1})
	got := own.posts[0]
	expect(t, got.path, "POST /v1/metrics")
	expect(t, got.headers.Get("Content-Type"), "application/x-protobuf")
	expect(t, got.headers.Get("X-Key"), "a b")
	body, err := gzip.NewReader(bytes.NewReader(got.body))
	expect(t, err, nil)
	text, _ := io.ReadAll(body)
	for _, word := range []string{"orders", "service.name", "service.instance.id", "telemetry.sdk.name"} {
		expect(t, strings.Contains(string(text), word), true)
	}
}

func TestWhatIsRefusedForGoodIsDropped(t *testing.T) {
	for _, status := range []int{400, 401, 404, 413, 500, 501, 302, 307} {
		own, exporter, orders := pushing(t, Settings{}, answer{status, map[string]string{"Location": "/elsewhere"}, ""})
		orders.Add(2)
		expect(t, exporter.again(t), nil)
		expect(t, exporter.Counts(), Counts{Dropped: 1})
		expect(t, len(own.posts), 1)
	}
}

func TestAReasonIsTold(t *testing.T) {
	_, exporter, orders := pushing(t, Settings{}, answer{400, nil, "\x08\x03\x12\x06no key"})
	told := ""
	exporter.tell = func(err error) { told += err.Error() }
	orders.Add(2)
	expect(t, exporter.again(t), nil)
	expect(t, strings.HasSuffix(told, "a collection is dropped: 400 Bad Request no key"), true)
}

func TestWhatIsNotTakenNowIsPostedAgain(t *testing.T) {
	for _, status := range []int{429, 502, 503, 504} {
		own, exporter, orders := pushing(t, Settings{}, answer{status: status}, done)
		orders.Add(2)
		expect(t, exporter.again(t), ErrWaiting)
		expect(t, exporter.Flush(context.Background()), ErrWaiting)
		expect(t, len(own.posts), 1) // not before a pause
		orders.Add(2)
		expect(t, exporter.again(t), nil)
		expect(t, exporter.Counts(), Counts{Posted: 2})
		expect(t, bytes.Equal(own.posts[0].body, own.posts[1].body), true)
	}
}

func TestAPauseThatIsAskedFor(t *testing.T) {
	for after, most := range map[string]time.Duration{
		"77": 77 * time.Second, time.Now().Add(77 * time.Second).UTC().Format(http.TimeFormat): 77 * time.Second,
		"soon": time.Second, "-5": time.Second, strings.Repeat("9", 400): time.Second, "2000000000": longestAsked,
	} {
		_, exporter, orders := pushing(t, Settings{}, answer{429, map[string]string{"Retry-After": after}, ""})
		orders.Add(2)
		expect(t, exporter.again(t), ErrWaiting)
		<-exporter.turn
		rest := time.Until(exporter.pausedUntil)
		exporter.turn <- struct{}{}
		expect(t, rest <= most && (most <= time.Second || rest > most-10*time.Second), true)
	}
}

func TestAPartThatIsRejected(t *testing.T) {
	_, exporter, orders := pushing(t, Settings{}, answer{body: "\n\x06\x08\x03\x12\x02no", status: 200})
	orders.Add(2)
	expect(t, exporter.again(t), nil)
	expect(t, exporter.Counts(), Counts{Posted: 1, Rejected: 3})
	for _, text := range []string{"", "\n", "\n\xff", strings.Repeat("\xff", 20), "\x08\x01", "\n\x01\x08", "<html>"} {
		partialSuccess([]byte(text))
	}
}

func TestNobodyAnswers(t *testing.T) {
	deaf, err := net.Listen("tcp", "127.0.0.1:0")
	expect(t, err, nil)
	defer deaf.Close()
	_, exporter, orders := pushing(t, Settings{Timeout: 50 * time.Millisecond}, done)
	exporter.settings.Endpoint = "http://" + deaf.Addr().String()
	orders.Add(2)
	expect(t, exporter.again(t), ErrWaiting)
	ended, end := context.WithCancel(context.Background())
	end()
	<-exporter.turn // as while another one posts
	expect(t, errors.Is(exporter.Flush(ended), ErrWaiting), true)
	exporter.turn <- struct{}{}
	ctx, end := context.WithTimeout(context.Background(), 10*time.Millisecond)
	defer end()
	expect(t, errors.Is(exporter.Shutdown(ctx), ErrWaiting), true)
	expect(t, exporter.Counts(), Counts{Waiting: 1})
}

func TestWhatWaitsHasAnEnd(t *testing.T) {
	_, exporter, orders := pushing(t, Settings{}, answer{status: 503})
	exporter.mostWaiting = 1000
	for made := 0; made < 10; made++ {
		orders.Add(1)
		expect(t, exporter.again(t), ErrWaiting)
	}
	counts := exporter.Counts()
	expect(t, counts.Dropped+counts.Waiting, uint64(10))
	expect(t, counts.Waiting > 0 && counts.Dropped > 0, true)
}

func TestABudgetNeverEnds(t *testing.T) {
	own, exporter, orders := pushing(t, Settings{}, done)
	runs := uint64(0)
	exporter.ended = func(ended *wormweekly.Ended) { runs += ended.Totals[0].Count }
	for made := 0; made < 50; made++ {
		expect(t, orders.TryAdd(1), nil)
		exporter.takeTurn()
	}
	expect(t, exporter.Shutdown(context.Background()), nil)
	expect(t, runs, uint64(48)) // eight of six each
	expect(t, len(own.posts), 9)
}

func TestAResourceThatIsNotTaken(t *testing.T) {
	metrics, err := wormweekly.Open(catalogue, config)
	expect(t, err, nil)
	_, err = New(metrics, metrics.Readers[0], With(Settings{Resource: []wormweekly.Attr{wormweekly.String("", "a")}}))
	expect(t, errors.Is(err, wormweekly.ErrEmptyKey), true)
}

func TestTheEnvironment(t *testing.T) {
	for name, value := range map[string]string{
		"OTEL_EXPORTER_OTLP_ENDPOINT": "https://host:1/below/", "OTEL_EXPORTER_OTLP_HEADERS": "api-key=a%20b, x = y=z",
		"OTEL_EXPORTER_OTLP_TIMEOUT": "1", "OTEL_EXPORTER_OTLP_METRICS_TIMEOUT": "1500",
		"OTEL_EXPORTER_OTLP_COMPRESSION": "gzip", "OTEL_METRIC_EXPORT_INTERVAL": "250",
		"OTEL_RESOURCE_ATTRIBUTES": "service.name=other,place=a%2Cb", "OTEL_SERVICE_NAME": "shop",
	} {
		t.Setenv(name, value)
	}
	said, err := OfEnvironment()
	expect(t, err, nil)
	expect(t, said.Endpoint, "https://host:1/below/v1/metrics")
	expect(t, said.Headers["api-key"]+said.Headers["x"], "a by=z")
	expect(t, [2]time.Duration{said.Timeout, said.Interval}, [2]time.Duration{1500e6, 250e6})
	expect(t, said.IsCompressed && len(said.Resource) == 2, true)
	expect(t, said.Resource[0].String()+said.Resource[1].String(), `service.name="shop"place="a,b"`)
	t.Setenv("OTEL_EXPORTER_OTLP_METRICS_ENDPOINT", "http://host/here")
	said, err = OfEnvironment()
	expect(t, err, nil)
	expect(t, said.Endpoint, "http://host/here")
}

func TestWhatTheEnvironmentCannotSay(t *testing.T) {
	for name, value := range map[string]string{
		"OTEL_EXPORTER_OTLP_ENDPOINT": "host:4318", "OTEL_EXPORTER_OTLP_METRICS_ENDPOINT": "http://",
		"OTEL_EXPORTER_OTLP_TIMEOUT": "10s", "OTEL_METRIC_EXPORT_INTERVAL": "0",
		"OTEL_EXPORTER_OTLP_COMPRESSION": "zstd", "OTEL_EXPORTER_OTLP_HEADERS": "key",
		"OTEL_RESOURCE_ATTRIBUTES": "=value",
	} {
		t.Run(name, func(t *testing.T) {
			t.Setenv(name, value)
			_, err := OfEnvironment()
			expect(t, errors.Is(err, ErrSettings) && strings.Contains(err.Error(), name+": "), true)
		})
	}
}
