//go:build peers

// Package bench compares a recording with three attributes to those of OpenTelemetry's SDK and of Prometheus' client,
// in one run.
// `tools/bindings --bench` runs it where these are installed (golang-opentelemetry-otel-dev,
// golang-github-prometheus-client-golang-dev).
package bench

import (
	"context"
	"fmt"
	"strings"
	"sync"
	"sync/atomic"
	"testing"

	"github.com/prometheus/client_golang/prometheus"
	"go.opentelemetry.io/otel/attribute"
	"go.opentelemetry.io/otel/metric"
	export "go.opentelemetry.io/otel/sdk/export/metric"
	sdk "go.opentelemetry.io/otel/sdk/metric"
	"go.opentelemetry.io/otel/sdk/metric/selector/simple"

	"wormweekly.example/wormweekly"
)

const (
	goroutines = 4
	atOnce     = 16
)

var (
	routes  = []string{"/", "/cart", "/pay", "/item"}
	methods = []string{"get", "post"}
	regions = []string{"north", "south"}
)

func listed(values []string) string { return "['" + strings.Join(values, "', '") + "']" }

const instrument = `format = 1
[[meter]]
name = 'measured'
[[meter.instrument]]
name = 'requests'
%s
key = [{ name = 'route', values = %s }, { name = 'method', values = %s }, { name = 'region', values = %s }]
`

const (
	summed    = "kind = 'counter'\nrange = [0, 100]"
	ones      = "kind = 'counter'\nrange = [1, 1]"
	histogram = "kind = 'histogram'\nrange = [0, 100]\nboundaries = [1, 10]"
)

const worker = `[[recorder]]
name = 'worker %d'
budget = [{ instrument = 0, amount = 1000000000000 }]
`

func catalogue(kind string) string {
	text := fmt.Sprintf(instrument, kind, listed(routes), listed(methods), listed(regions))
	for number := 0; number < goroutines; number++ {
		text += fmt.Sprintf(worker, number)
	}
	return text
}

const config = "format = 1\n[[reader]]\nname = 'all'\n"

func opened(b *testing.B, kind string) (*wormweekly.Metrics, *wormweekly.Instrument) {
	metrics, err := wormweekly.Open(catalogue(kind), config)
	if err != nil {
		b.Fatal(err)
	}
	b.ReportAllocs()
	return metrics, metrics.Instruments[0]
}

func bound(b *testing.B, requests *wormweekly.Instrument) []wormweekly.Item {
	items := make([]wormweekly.Item, atOnce)
	for at := range items {
		made, err := requests.Bind(wormweekly.String("route", routes[at%4]), wormweekly.String("method", methods[at/4%2]),
			wormweekly.String("region", regions[at/8%2]))
		if err != nil {
			b.Fatal(err)
		}
		items[at] = wormweekly.Item{Bound: made, Value: 1}
	}
	return items
}

// Runs a recording in one goroutine, and in four.
func each(b *testing.B, make func(*testing.B) func(goroutine, at int)) {
	b.Run("one", func(b *testing.B) {
		record := make(b)
		b.ResetTimer()
		for at := 0; at < b.N; at++ {
			record(0, at)
		}
	})
	b.Run("four", func(b *testing.B) {
		record := make(b)
		var next int32 = -1
		b.ResetTimer()
		b.RunParallel(func(loop *testing.PB) {
			goroutine := int(atomic.AddInt32(&next, 1))
			for at := 0; loop.Next(); at++ {
				record(goroutine, at)
			}
		})
	})
}

func BenchmarkWormweeklyAtTheCall(b *testing.B) {
	each(b, func(b *testing.B) func(int, int) {
		_, requests := opened(b, summed)
		return func(_, at int) {
			requests.Add(1, wormweekly.String("route", routes[at%4]), wormweekly.String("method", methods[at/4%2]),
				wormweekly.String("region", regions[at/8%2]))
		}
	})
}

func benchmarkBound(b *testing.B, kind string) {
	each(b, func(b *testing.B) func(int, int) {
		_, requests := opened(b, kind)
		items := bound(b, requests)
		return func(_, at int) { items[at%atOnce].Bound.Add(1) }
	})
}

// A sum of two values is in the range, and they are added up.
func BenchmarkWormweeklyBound(b *testing.B) { benchmarkBound(b, summed) }

// It is not, and each is a recording of the library.
func BenchmarkWormweeklyBoundOnes(b *testing.B) { benchmarkBound(b, ones) }

func BenchmarkWormweeklyBoundHistogram(b *testing.B) { benchmarkBound(b, histogram) }

func BenchmarkWormweeklyByARecorder(b *testing.B) {
	each(b, func(b *testing.B) func(int, int) {
		metrics, requests := opened(b, summed)
		items := bound(b, requests)
		return func(goroutine, at int) {
			if err := metrics.Recorders[goroutine].Add(items[at%atOnce].Bound, 1); err != nil {
				b.Error(err)
			}
		}
	})
}

// The time is that of sixteen recordings.
func BenchmarkWormweeklySixteenByARecorder(b *testing.B) {
	each(b, func(b *testing.B) func(int, int) {
		metrics, requests := opened(b, summed)
		items := bound(b, requests)
		return func(goroutine, at int) {
			if err := metrics.Recorders[goroutine].AddAll(items); err != nil {
				b.Error(err)
			}
		}
	})
}

// The peer. Its accumulator hands what it adds up to a processor at a collection, and there is none here.
type peer struct{ export.AggregatorSelector }

func (peer) Process(export.Accumulation) error { return nil }

func counter(b *testing.B) metric.Int64Counter {
	b.ReportAllocs()
	meter := metric.WrapMeterImpl(sdk.NewAccumulator(peer{simple.NewWithInexpensiveDistribution()}))
	return metric.Must(meter).NewInt64Counter("requests")
}

func labels(at int) (route, method, region attribute.KeyValue) {
	return attribute.String("route", routes[at%4]), attribute.String("method", methods[at/4%2]),
		attribute.String("region", regions[at/8%2])
}

func BenchmarkOpenTelemetryAtTheCall(b *testing.B) {
	each(b, func(b *testing.B) func(int, int) {
		requests, ctx := counter(b), context.Background()
		return func(_, at int) {
			route, method, region := labels(at)
			requests.Add(ctx, 1, route, method, region)
		}
	})
}

func BenchmarkOpenTelemetryBound(b *testing.B) {
	each(b, func(b *testing.B) func(int, int) {
		requests, ctx := counter(b), context.Background()
		var bound [atOnce]metric.BoundInt64Counter
		for at := range bound {
			route, method, region := labels(at)
			bound[at] = requests.Bind(route, method, region)
		}
		return func(_, at int) { bound[at%atOnce].Add(ctx, 1) }
	})
}

func prometheusCounter(b *testing.B) *prometheus.CounterVec {
	b.ReportAllocs()
	return prometheus.NewCounterVec(prometheus.CounterOpts{Name: "requests"}, []string{"route", "method", "region"})
}

func BenchmarkPrometheusAtTheCall(b *testing.B) {
	each(b, func(b *testing.B) func(int, int) {
		requests := prometheusCounter(b)
		return func(_, at int) {
			requests.WithLabelValues(routes[at%4], methods[at/4%2], regions[at/8%2]).Inc()
		}
	})
}

func BenchmarkPrometheusBound(b *testing.B) {
	each(b, func(b *testing.B) func(int, int) {
		requests := prometheusCounter(b)
		var bound [atOnce]prometheus.Counter
		for at := range bound {
			bound[at] = requests.WithLabelValues(routes[at%4], methods[at/4%2], regions[at/8%2])
		}
		return func(_, at int) { bound[at%atOnce].Inc() }
	})
}

func BenchmarkAMutexAroundAMap(b *testing.B) {
	each(b, func(b *testing.B) func(int, int) {
		var mutex sync.Mutex
		counts := map[[3]string]int64{}
		return func(_, at int) {
			mutex.Lock()
			counts[[3]string{routes[at%4], methods[at/4%2], regions[at/8%2]}]++
			mutex.Unlock()
		}
	})
}
