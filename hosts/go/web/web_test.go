package web

import (
	"errors"
	"fmt"
	"io"
	"net/http"
	"net/http/httptest"
	"strings"
	"sync"
	"testing"
	"time"

	"wormweekly.example/wormweekly"
)

const instruments = `format = 1
[[meter]]
name = 'http'
[[meter.instrument]]
name = 'http.requests'
kind = 'counter'
range = [1, 1]
key = [{ name = 'route', values = ['/', '/cart', 'other'] }, { name = 'status', values = [200, 404, 'other'] }]
[[meter.instrument]]
name = 'http.duration'
kind = 'histogram'
unit = 'ms'
range = [0, 60000]
boundaries = [5, 50, 500]
key = [{ name = 'method', values = ['GET', 'other'] }]
[[meter.instrument]]
name = 'http.in_flight'
kind = 'up_down_counter'
range = [-1, 1]
`

// A run of eight recorders.
func opened(t *testing.T) *wormweekly.Metrics {
	t.Helper()
	catalogue := instruments
	for number := 0; number < 8; number++ {
		catalogue += fmt.Sprintf("[[recorder]]\nname = '%d'\nbudget = [{ instrument = 0, amount = 40000 }, "+
			"{ instrument = 1, amount = 40000 }, { instrument = 2, amount = 80000 }]\n", number)
	}
	metrics, err := wormweekly.Open(catalogue, "format = 1\n[[reader]]\nname = 'all'\n")
	if err != nil {
		t.Fatal(err)
	}
	return metrics
}

func served(t *testing.T, metrics *wormweekly.Metrics, handler http.HandlerFunc) *httptest.Server {
	t.Helper()
	measured, err := Measure(handler, metrics)
	if err != nil {
		t.Fatal(err)
	}
	server := httptest.NewServer(measured)
	t.Cleanup(server.Close)
	return server
}

// What is counted, by its attributes.
func seen(t *testing.T, metrics *wormweekly.Metrics, instrument int) map[string]int64 {
	t.Helper()
	batch, err := metrics.Readers[0].Collect(metrics.Instruments[instrument], time.Now())
	if err != nil {
		t.Fatal(err)
	}
	made := map[string]int64{}
	for _, point := range batch.Streams[0].Points {
		switch value := point.Value.(type) {
		case wormweekly.Sum:
			made[fmt.Sprint(point.Attributes)] = int64(value)
		case wormweekly.Buckets:
			made[fmt.Sprint(point.Attributes)] = int64(value.Count)
		}
	}
	return made
}

func expect(t *testing.T, got, want any) {
	t.Helper()
	if fmt.Sprint(got) != fmt.Sprint(want) {
		t.Errorf("%v, and not %v", got, want)
	}
}

func TestWhatIsRecorded(t *testing.T) {
	metrics := opened(t)
	server := served(t, metrics, func(writer http.ResponseWriter, request *http.Request) {
		switch request.URL.Path {
		case "/none":
			http.NotFound(writer, request)
		case "/panic":
			panic(http.ErrAbortHandler)
		default:
			writer.(http.Flusher).Flush()
		}
	})
	for _, path := range []string{"/", "/cart", "/cart", "/none", "/panic"} {
		if answer, err := http.Get(server.URL + path); err == nil {
			answer.Body.Close()
		}
	}
	if answer, err := http.Post(server.URL, "", nil); err == nil {
		answer.Body.Close()
	}
	server.Close() // waits for what is counted after an answer
	expect(t, seen(t, metrics, 0), map[string]int64{`[route="/" status=200]`: 2, `[route="/cart" status=200]`: 2,
		`[route="other" status=404]`: 1, `[route="other" status="other"]`: 1})
	expect(t, seen(t, metrics, 1), map[string]int64{`[method="GET"]`: 5, `[method="other"]`: 1})
	expect(t, seen(t, metrics, 2), map[string]int64{"[]": 0})
	expect(t, [2]uint64{metrics.Instruments[0].Replaced(), metrics.Instruments[1].Replaced()}, [2]uint64{3, 1})
	if _, err := Measure(nil, metrics, Names("other", "", "")); !errors.Is(err, wormweekly.ErrUnknownName) {
		t.Error(err)
	}
}

// All of 64 connections are served at once: each answer waits for all the others.
func TestManyConnections(t *testing.T) {
	const connections, rounds = 64, 10
	metrics := opened(t)
	var arrived sync.WaitGroup
	arrived.Add(connections)
	server := served(t, metrics, func(writer http.ResponseWriter, request *http.Request) {
		if request.URL.Path == "/cart" {
			arrived.Done()
			arrived.Wait()
		}
	})
	var clients sync.WaitGroup
	for number := 0; number < connections; number++ {
		clients.Add(1)
		go func() {
			defer clients.Done()
			client := &http.Client{Transport: &http.Transport{}}
			for round := 0; round < rounds; round++ {
				answer, err := client.Get(server.URL + []string{"/", "/cart"}[round/(rounds-1)])
				if err != nil {
					t.Error(err)
					return
				}
				_, _ = io.Copy(io.Discard, answer.Body)
				answer.Body.Close()
			}
		}()
	}
	clients.Wait()
	expect(t, seen(t, metrics, 0), map[string]int64{`[route="/" status=200]`: connections * (rounds - 1),
		`[route="/cart" status=200]`: connections})
	expect(t, seen(t, metrics, 1), map[string]int64{`[method="GET"]`: connections * rounds})
	expect(t, seen(t, metrics, 2), map[string]int64{"[]": 0})
}

func TestAThousandGoroutines(t *testing.T) {
	metrics := opened(t)
	requests, inFlight := metrics.Instruments[0], metrics.Instruments[2]
	var working sync.WaitGroup
	for number := 0; number < 1000; number++ {
		working.Add(1)
		go func() {
			defer working.Done()
			defer inFlight.InFlight()()
			for made := 0; made < 100; made++ {
				requests.Add(1, wormweekly.String("route", "/"), wormweekly.Int("status", 200))
			}
		}()
	}
	working.Wait()
	totals, err := metrics.Settle()
	if err != nil {
		t.Fatal(err)
	}
	expect(t, [3]any{totals[0].Count, totals[2].Count, totals[2].Sum}, "[100000 2000 0]")
	expect(t, len(requests.Refused())+len(inFlight.Refused()), 0)
}

func TestAnAnswerIsAsTheServerGivesIt(t *testing.T) {
	metrics := opened(t)
	server := served(t, metrics, func(writer http.ResponseWriter, request *http.Request) {
		connection, buffer, err := writer.(http.Hijacker).Hijack()
		if err != nil {
			t.Error(err)
			return
		}
		defer connection.Close()
		_, _ = buffer.WriteString("HTTP/1.1 200 OK\r\nContent-Length: 2\r\nConnection: close\r\n\r\nok")
		_ = buffer.Flush()
	})
	answer, err := http.Get(server.URL + "/")
	if err != nil {
		t.Fatal(err)
	}
	defer answer.Body.Close()
	body, _ := io.ReadAll(answer.Body)
	expect(t, strings.TrimSpace(string(body)), "ok")
}
