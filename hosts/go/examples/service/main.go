// A whole service: four workers, seven instruments, two readers, a roll-over in the middle, and an end at which each
// total is what the workers counted themselves.
//
//	go run ./examples/service CATALOGUE CONFIG
package main

import (
	"fmt"
	"log"
	"os"
	"sync"
	"time"

	"wormweekly.example/wormweekly"
)

const requests = 1000

var routes = []string{"/", "/cart", "/pay"}

func main() {
	if len(os.Args) != 3 {
		log.Fatal("usage: service CATALOGUE CONFIG")
	}
	if err := run(os.Args[1], os.Args[2]); err != nil {
		log.Fatal(err)
	}
}

func run(cataloguePath, configPath string) error {
	metrics, err := open(cataloguePath, configPath)
	if err != nil {
		return err
	}
	collectors := make([]*collector, len(metrics.Readers))
	for at, reader := range metrics.Readers {
		collectors[at] = start(metrics, reader)
	}

	// The first run. What is collected between its end and the roll-over is what a delta reader has not seen of it.
	workers := serve(metrics)
	for _, one := range collectors {
		if err := one.end(); err != nil {
			return err
		}
	}
	ended, err := metrics.RollOver(time.Now())
	if err != nil {
		return err
	}
	if err := compare(metrics, workers, ended.Totals); err != nil {
		return err
	}

	// The second run, in the same seats, with fresh budgets. Its end is the shutdown.
	workers = serve(metrics)
	for _, instrument := range metrics.Instruments {
		if err := instrument.Close(); err != nil {
			return err
		}
	}
	var seen wormweekly.Sum
	for _, one := range collectors {
		if err := one.collect(); err != nil {
			return err
		}
		seen += one.requests
	}
	totals, err := metrics.Settle()
	if err != nil {
		return err
	}
	fmt.Printf("requests that the delta reader saw: %d\n", seen)
	return compare(metrics, workers, totals)
}

func open(cataloguePath, configPath string) (*wormweekly.Metrics, error) {
	catalogue, err := os.ReadFile(cataloguePath)
	if err != nil {
		return nil, err
	}
	config, err := os.ReadFile(configPath)
	if err != nil {
		return nil, err
	}
	return wormweekly.Open(string(catalogue), string(config))
}

// A worker serves requests, and counts by itself what was recorded, so that the totals can be compared.
type worker struct {
	metrics  *wormweekly.Metrics
	recorder *wormweekly.Recorder
	counts   [7]uint64
	sums     [7]int64
	refused  int
}

func serve(metrics *wormweekly.Metrics) []*worker {
	workers := make([]*worker, len(metrics.Recorders))
	var waiting sync.WaitGroup
	for at, recorder := range metrics.Recorders {
		own := &worker{metrics: metrics, recorder: recorder}
		workers[at] = own
		waiting.Add(1)
		go func() {
			defer waiting.Done()
			for number := 0; number < requests; number++ {
				own.serve(number)
			}
		}()
	}
	waiting.Wait()
	return workers
}

func (own *worker) serve(number int) {
	status, failed := int64(200), int64(0)
	route := wormweekly.String("route", routes[number%3])
	if number%3 == 2 && number%5 == 0 {
		status, failed = 500, 1
	}
	duration := int64(number * 7 % 900)
	sold := int64(number % 2)
	answered := wormweekly.Int("status", status)
	own.record(0, 1, route, answered)
	own.record(1, failed)
	own.record(2, duration, route)
	own.record(3, int64(200+number), route, answered)
	own.record(4, duration, wormweekly.Int("worker", int64(own.recorder.Number())))
	own.record(5, sold, route)
	own.record(6, 1-2*sold)
}

func (own *worker) record(instrument int, value int64, attributes ...wormweekly.Attr) {
	if err := own.recorder.Record(own.metrics.Instruments[instrument], value, attributes...); err != nil {
		own.refused++
		return
	}
	own.counts[instrument]++
	own.sums[instrument] += value
}

// A collector collects all instruments again and again, and adds up what a delta reader saw of the requests.
type collector struct {
	metrics  *wormweekly.Metrics
	reader   *wormweekly.Reader
	requests wormweekly.Sum
	stop     chan struct{}
	ended    chan error
}

func start(metrics *wormweekly.Metrics, reader *wormweekly.Reader) *collector {
	own := &collector{metrics: metrics, reader: reader, stop: make(chan struct{}), ended: make(chan error, 1)}
	go func() {
		ticker := time.NewTicker(5 * time.Millisecond)
		defer ticker.Stop()
		for {
			select {
			case <-own.stop:
				own.ended <- own.collect()
				return
			case <-ticker.C:
				if err := own.collect(); err != nil {
					own.ended <- err
					return
				}
			}
		}
	}()
	return own
}

func (own *collector) end() error {
	close(own.stop)
	return <-own.ended
}

func (own *collector) collect() error {
	for _, instrument := range own.metrics.Instruments {
		batch, err := own.reader.Collect(instrument, time.Now())
		if err != nil {
			return err
		}
		for _, stream := range batch.Streams {
			if stream.Name != "http.requests" || !stream.IsDelta {
				continue
			}
			for _, point := range stream.Points {
				own.requests += point.Value.(wormweekly.Sum)
			}
		}
	}
	return nil
}

func compare(metrics *wormweekly.Metrics, workers []*worker, totals []wormweekly.Total) error {
	refused := 0
	for _, one := range workers {
		refused += one.refused
	}
	for at, total := range totals {
		var count uint64
		var sum int64
		for _, one := range workers {
			count += one.counts[at]
			sum += one.sums[at]
		}
		name := metrics.Instruments[at].Name()
		if total.Count != count || total.Sum.Int64() != sum {
			return fmt.Errorf("%s: %v, and the workers counted %d in %d recordings", name, total, sum, count)
		}
		fmt.Printf("%s: %d in %d recordings\n", name, sum, count)
	}
	fmt.Printf("refused: %d\n", refused)
	return nil
}
