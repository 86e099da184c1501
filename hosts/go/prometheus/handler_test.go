package prometheus

import (
	"bytes"
	"compress/gzip"
	"errors"
	"io"
	"net/http"
	"net/http/httptest"
	"strings"
	"testing"
	"time"

	"wormweekly.example/wormweekly"
)

const catalogue = `format = 1
[[meter]]
name = 'shop'
[[meter.instrument]]
name = 'http.requests'
kind = 'counter'
range = [1, 10]
key = [{ name = 'route', values = ['/', "a\"b\\c\nd"] }, { name = 'cached', values = [true] }]
[[meter.instrument]]
name = 'duration'
kind = 'histogram'
unit = 'ms'
range = [0, 1000]
boundaries = [10, 100]
[[meter.instrument]]
name = 'level'
kind = 'gauge'
unit = 'm'
range = [-10, 10]
[[recorder]]
name = 'one'
budget = [{ instrument = 0, amount = 10 }, { instrument = 1, amount = 10 }, { instrument = 2, amount = 10 }]
`

const config = `format = 1
[[reader]]
name = 'page'
`

const text = `# HELP target_info Target metadata
# TYPE target_info gauge
target_info{service_name="shop"} 1
# HELP http_requests_total 
# TYPE http_requests_total counter
http_requests_total{route="a\"b\\c\nd",cached="true",otel_scope_name="shop"} 5
# HELP duration_milliseconds 
# TYPE duration_milliseconds histogram
duration_milliseconds_bucket{otel_scope_name="shop",le="10.0"} 1
duration_milliseconds_bucket{otel_scope_name="shop",le="100.0"} 2
duration_milliseconds_bucket{otel_scope_name="shop",le="+Inf"} 3
duration_milliseconds_sum{otel_scope_name="shop"} 561
duration_milliseconds_count{otel_scope_name="shop"} 3
# HELP level_meters 
# TYPE level_meters gauge
level_meters{otel_scope_name="shop"} -7
`

func opened(t *testing.T, more string) *wormweekly.Metrics {
	t.Helper()
	metrics, err := wormweekly.Open(catalogue, config+more, wormweekly.Since(time.Unix(1, 0)))
	if err != nil {
		t.Fatal(err)
	}
	recordings := []struct {
		instrument int
		value      int64
		attributes []wormweekly.Attr
	}{
		{0, 5, []wormweekly.Attr{wormweekly.String("route", "a\"b\\c\nd"), wormweekly.Bool("cached", true)}},
		{1, 10, nil},
		{1, 51, nil},
		{1, 500, nil},
		{2, -7, nil},
	}
	for _, own := range recordings {
		instrument := metrics.Instruments[own.instrument]
		if err := metrics.Recorders[0].Record(instrument, own.value, own.attributes...); err != nil {
			t.Fatal(err)
		}
	}
	return metrics
}

func TestThePage(t *testing.T) {
	metrics := opened(t, "")
	handler, err := Handler(metrics, metrics.Readers[0], wormweekly.String("service.name", "shop"))
	if err != nil {
		t.Fatal(err)
	}
	cases := []struct{ accept, contentType, begins, ends string }{
		{"", "text/plain; version=0.0.4; charset=utf-8", text, text},
		{
			"application/openmetrics-text;version=1.0.0", "application/openmetrics-text; version=1.0.0; charset=utf-8",
			"# HELP target Target metadata\n# TYPE target info\n", "# EOF\n",
		},
	}
	for _, one := range cases {
		request := httptest.NewRequest(http.MethodGet, "/metrics", nil)
		request.Header.Set("Accept", one.accept)
		answer := httptest.NewRecorder()
		handler.ServeHTTP(answer, request)
		got := answer.Body.String()
		if !strings.HasPrefix(got, one.begins) || !strings.HasSuffix(got, one.ends) || answer.Code != http.StatusOK {
			t.Errorf("%s\nand not\n%s", got, one.begins)
		}
		if kind := answer.Header().Get("Content-Type"); kind != one.contentType {
			t.Error(kind)
		}
	}
}

func TestAPageIsPackedWhereThatIsTaken(t *testing.T) {
	metrics := opened(t, "")
	page, err := Handler(metrics, metrics.Readers[0])
	if err != nil {
		t.Fatal(err)
	}
	request, answer := httptest.NewRequest(http.MethodGet, "/metrics", nil), httptest.NewRecorder()
	request.Header.Set("Accept-Encoding", "gzip")
	page.ServeHTTP(answer, request)
	unpacked, err := gzip.NewReader(answer.Body)
	if err != nil || answer.Header().Get("Content-Encoding") != "gzip" {
		t.Fatal(err, answer.Header())
	}
	want, err := metrics.Page(metrics.Readers[0], time.Now(), wormweekly.Text)
	if got, fault := io.ReadAll(unpacked); err != nil || fault != nil || !bytes.Equal(got, want) {
		t.Errorf("%s\nand not\n%s", got, want)
	}
}

func TestWhatHasNoPage(t *testing.T) {
	metrics, other := opened(t, ""), opened(t, "")
	windows := opened(t, "temporality = { counter = 'delta', histogram = 'delta' }\n")
	if _, err := Handler(windows, windows.Readers[0]); !errors.Is(err, wormweekly.ErrNotExposed) {
		t.Error(err)
	}
	if _, err := Handler(metrics, other.Readers[0]); !errors.Is(err, wormweekly.ErrStranger) {
		t.Error(err)
	}
	nameless := wormweekly.String("", "shop")
	if _, err := Handler(metrics, metrics.Readers[0], nameless); !errors.Is(err, wormweekly.ErrEmptyKey) {
		t.Error(err)
	}
	dotted, lined := wormweekly.String("a.b", "1"), wormweekly.String("a_b", "2")
	if _, err := Handler(metrics, metrics.Readers[0], dotted, lined); !errors.Is(err, wormweekly.ErrLabelCollision) {
		t.Error(err)
	}
	signs := wormweekly.String("./.", "1")
	if _, err := Handler(metrics, metrics.Readers[0], signs); !errors.Is(err, wormweekly.ErrBadLabel) {
		t.Error(err)
	}
}

func TestAPageGoesOnWhereARunEnds(t *testing.T) {
	metrics, err := wormweekly.Open(catalogue, config)
	if err != nil {
		t.Fatal(err)
	}
	page, err := Handler(metrics, metrics.Readers[0], wormweekly.String("service.name", "shop"))
	if err != nil {
		t.Fatal(err)
	}
	asked := func(accept string) string {
		request, answer := httptest.NewRequest(http.MethodGet, "/metrics", nil), httptest.NewRecorder()
		request.Header.Set("Accept", accept)
		page.ServeHTTP(answer, request)
		return answer.Body.String()
	}
	for round := int64(0); round < 32; round++ {
		for _, instrument := range metrics.Instruments[1:] {
			if err := instrument.TryAdd(round % 10); err != nil {
				t.Fatal(err)
			}
		}
		asked("")
	}
	samples := `duration_milliseconds_bucket{otel_scope_name="shop",le="10.0"} 32
duration_milliseconds_bucket{otel_scope_name="shop",le="100.0"} 32
duration_milliseconds_bucket{otel_scope_name="shop",le="+Inf"} 32
duration_milliseconds_sum{otel_scope_name="shop"} 136
duration_milliseconds_count{otel_scope_name="shop"} 32
`
	level := "level_meters{otel_scope_name=\"shop\"} 1\n"
	for accept, ends := range map[string]string{"": level, "application/openmetrics-text": level + "# EOF\n"} {
		got := asked(accept)
		if !strings.Contains(got, samples) || !strings.HasSuffix(got, ends) || !strings.Contains(got, "target_info{") {
			t.Error(got)
		}
	}
	requests := metrics.Instruments[0]
	requests.Add(1, wormweekly.String("route", "/"), wormweekly.Bool("cached", true))
	ended, err := metrics.RollOver(time.Now())
	if err != nil {
		t.Fatal(err)
	}
	if err := page.Take(ended); err != nil || !strings.Contains(asked(""), `http_requests_total{route="/",cached="true",otel_scope_name="shop"} 1`) {
		t.Error(err, asked(""))
	}
}

func TestAPageTellsWhenSeriesBegan(t *testing.T) {
	metrics := opened(t, "")
	page, err := Handler(metrics, metrics.Readers[0])
	if err != nil {
		t.Fatal(err)
	}
	page.Created = true
	ended, err := metrics.RollOver(time.Now())
	if err != nil {
		t.Fatal(err)
	}
	if err := page.Take(ended); err != nil {
		t.Fatal(err)
	}
	request, answer := httptest.NewRequest(http.MethodGet, "/metrics", nil), httptest.NewRecorder()
	request.Header.Set("Accept", "application/openmetrics-text")
	page.ServeHTTP(answer, request)
	for _, line := range []string{
		`http_requests_created{route="a\"b\\c\nd",cached="true",otel_scope_name="shop"} 1.000000000`,
		`http_requests_total{route="a\"b\\c\nd",cached="true",otel_scope_name="shop"} 5`,
		`duration_milliseconds_created{otel_scope_name="shop"} 1.000000000`,
		`duration_milliseconds_count{otel_scope_name="shop"} 3`,
	} {
		if !strings.Contains(answer.Body.String(), line+"\n") {
			t.Errorf("no %s in\n%s", line, answer.Body.String())
		}
	}
}
