// A server for tools/load: "load measured", or "load plain".
package main

import (
	"fmt"
	"log"
	"net"
	"net/http"
	"os"
	"time"

	"wormweekly.example/wormweekly"
	"wormweekly.example/wormweekly/prometheus"
	"wormweekly.example/wormweekly/web"
)

const catalogue = `format = 1
[[meter]]
name = 'http'
[[meter.instrument]]
name = 'http.requests'
kind = 'counter'
range = [1, 1]
key = [{ name = 'route', values = ['/', 'other'] }, { name = 'status', values = [200, 'other'] }]
[[meter.instrument]]
name = 'http.duration'
kind = 'histogram'
unit = 'ms'
range = [0, 60000]
boundaries = [5, 50, 500]
[[meter.instrument]]
name = 'http.in_flight'
kind = 'up_down_counter'
range = [-1, 1]
`

const recorder = `[[recorder]]
name = '%d'
budget = [{ instrument = 0, amount = 10000 }, { instrument = 1, amount = 10000 }, { instrument = 2, amount = 20000 }]
`

func slow(writer http.ResponseWriter, _ *http.Request) {
	time.Sleep(50 * time.Millisecond)
	fmt.Fprintln(writer, "done")
}

// The slow handler, measured by four recorders, with its page.
func measured() (http.Handler, error) {
	text := catalogue
	for number := 0; number < 4; number++ {
		text += fmt.Sprintf(recorder, number)
	}
	metrics, err := wormweekly.Open(text, "format = 1\n[[reader]]\nname = 'prometheus'\n")
	if err != nil {
		return nil, err
	}
	page, err := prometheus.Handler(metrics, metrics.Readers[0])
	if err != nil {
		return nil, err
	}
	handler, err := web.Measure(http.HandlerFunc(slow), metrics)
	if err != nil {
		return nil, err
	}
	mux := http.NewServeMux()
	mux.Handle("/metrics", page)
	mux.Handle("/", handler)
	return mux, nil
}

func main() {
	var handler http.Handler = http.HandlerFunc(slow)
	if len(os.Args) > 1 && os.Args[1] == "measured" {
		var err error
		if handler, err = measured(); err != nil {
			log.Fatal(err)
		}
	}
	listener, err := net.Listen("tcp", "127.0.0.1:0")
	if err != nil {
		log.Fatal(err)
	}
	fmt.Println(listener.Addr().(*net.TCPAddr).Port)
	log.Fatal(http.Serve(listener, handler))
}
