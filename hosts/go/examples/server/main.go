// A server that is measured, and shows its metrics at /metrics. What it records itself are names of code that
// `wormweekly bind` made of its catalogue.
//
//	go run ./examples/server            serves some requests to itself, and prints the page
//	go run ./examples/server ADDRESS    serves
package main

import (
	_ "embed"
	"fmt"
	"io"
	"log"
	"net"
	"net/http"
	"os"
	"strings"

	"wormweekly.example/wormweekly"
	"wormweekly.example/wormweekly/examples/server/bound"
	"wormweekly.example/wormweekly/prometheus"
	"wormweekly.example/wormweekly/web"
)

//go:embed catalogue.toml
var catalogue string

const config = `format = 1
[[reader]]
name = 'prometheus'
`

func main() {
	address := ""
	if len(os.Args) > 1 {
		address = os.Args[1]
	}
	if err := run(address); err != nil {
		log.Fatal(err)
	}
}

func run(address string) error {
	metrics, err := bound.Open(catalogue, config)
	if err != nil {
		return err
	}
	own := metrics.Own
	page, err := prometheus.Handler(own, own.Readers[0], wormweekly.String("service.name", "shop"))
	if err != nil {
		return err
	}
	mux := http.NewServeMux()
	mux.Handle("/metrics", page)
	own.OnRefusal(func(_ *wormweekly.Instrument, err error) { log.Printf("not counted, told once: %v", err) })
	measured, err := web.Measure(shop{metrics}, own)
	if err != nil {
		return err
	}
	mux.Handle("/", measured)
	if address != "" {
		return http.ListenAndServe(address, mux)
	}
	return show(mux)
}

type shop struct{ metrics *bound.Metrics }

func (own shop) ServeHTTP(writer http.ResponseWriter, request *http.Request) {
	switch request.URL.Path {
	case "/":
		fmt.Fprintln(writer, "welcome")
	case "/cart":
		country := bound.Country_Of(request.URL.Query().Get("country"))
		if err := own.metrics.Shop.Orders.Add(nil, country, 1); err != nil {
			http.Error(writer, "no such country", http.StatusBadRequest)
			return
		}
		fmt.Fprintln(writer, "ordered")
	default:
		http.NotFound(writer, request)
	}
}

// Serves some requests to itself, and prints the page, but for what depends on the clock.
func show(handler http.Handler) error {
	listener, err := net.Listen("tcp", "127.0.0.1:0")
	if err != nil {
		return err
	}
	defer listener.Close()
	go func() { _ = http.Serve(listener, handler) }()
	var page []byte
	for _, path := range []string{"/", "/cart?country=de", "/", "/nothing", "/metrics"} {
		answer, err := http.Get("http://" + listener.Addr().String() + path)
		if err != nil {
			return err
		}
		if page, err = io.ReadAll(answer.Body); err != nil {
			return err
		}
		answer.Body.Close()
	}
	for _, line := range strings.SplitAfter(string(page), "\n") {
		if !strings.HasPrefix(line, "http_duration_milliseconds_") {
			fmt.Print(line)
		}
	}
	return nil
}
