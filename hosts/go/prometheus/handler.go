// Package prometheus shows the metrics of a cumulative reader as a page for Prometheus.
package prometheus

import (
	"compress/gzip"
	"net/http"
	"sync"
	"time"

	"wormweekly.example/wormweekly"
)

// A Page of all instruments, which a handler of HTTP answers with. It goes on where a run ends: what ended is added.
type Page struct {
	// Created has pages in OpenMetrics say when counters and histograms began, in lines `_created`. A server that does
	// not take them as that keeps each as a series more. Set it before the first request.
	Created bool

	metrics  *wormweekly.Metrics
	reader   int
	resource []wormweekly.Attr
	mutex    sync.Mutex
	ended    map[wormweekly.Dialect][]byte // pages of runs that ended, added up
}

// Handler answers each request with a page of all instruments, collected then, with the attributes of the resource.
// Where the metrics have no other reader, it rolls them over before a budget is spent, as far as requests come in time;
// else hand Take the runs that end. A page is packed by gzip where the request takes that. The error says why there is
// none: streams that can not stand in one, a resource that is not taken, or a reader of another run.
func Handler(metrics *wormweekly.Metrics, reader *wormweekly.Reader, resource ...wormweekly.Attr) (*Page, error) {
	if err := reader.Expose(); err != nil {
		return nil, err
	}
	if _, err := metrics.Page(reader, time.Now(), wormweekly.Text, resource...); err != nil {
		return nil, err
	}
	return &Page{metrics: metrics, reader: reader.Number(), resource: resource}, nil
}

func (own *Page) ServeHTTP(writer http.ResponseWriter, request *http.Request) {
	dialect := wormweekly.Accepted(request.Header.Get("Accept"))
	if dialect == wormweekly.OpenMetrics {
		dialect = own.openMetrics()
	}
	page, err := own.text(dialect)
	if err != nil {
		http.Error(writer, err.Error(), http.StatusInternalServerError)
		return
	}
	header := writer.Header()
	header.Set("Content-Type", dialect.ContentType())
	header.Set("Vary", "Accept, Accept-Encoding")
	if !wormweekly.AcceptsGzip(request.Header.Get("Accept-Encoding")) {
		_, _ = writer.Write(page) // whoever asked has gone
		return
	}
	header.Set("Content-Encoding", "gzip")
	packer := gzip.NewWriter(writer)
	_, _ = packer.Write(page)
	_ = packer.Close()
}

func (own *Page) openMetrics() wormweekly.Dialect {
	if own.Created {
		return wormweekly.OpenMetricsCreated
	}
	return wormweekly.OpenMetrics
}

// Take adds a run that ended.
func (own *Page) Take(ended *wormweekly.Ended) error {
	own.mutex.Lock()
	defer own.mutex.Unlock()
	return own.take(ended)
}

func (own *Page) take(ended *wormweekly.Ended) error {
	sums := map[wormweekly.Dialect][]byte{}
	for _, dialect := range []wormweekly.Dialect{wormweekly.Text, own.openMetrics()} {
		last, err := own.collected(ended.Metrics, dialect)
		if err != nil {
			return err
		}
		if sums[dialect], err = added(dialect, own.ended[dialect], last, false); err != nil {
			return err
		}
	}
	own.ended = sums
	return nil
}

func (own *Page) text(dialect wormweekly.Dialect) ([]byte, error) {
	own.mutex.Lock()
	defer own.mutex.Unlock()
	if err := own.rollOver(); err != nil {
		return nil, err
	}
	last, err := own.collected(own.metrics, dialect)
	if err != nil || own.ended == nil {
		return last, err
	}
	return added(dialect, own.ended[dialect], last, true)
}

func (own *Page) rollOver() error {
	left, err := own.metrics.PartLeft()
	if err != nil || left >= 0.5 || len(own.metrics.Readers) > 1 {
		return err
	}
	ended, err := own.metrics.RollOver(time.Now())
	if err != nil {
		return err
	}
	return own.take(ended)
}

func (own *Page) collected(metrics *wormweekly.Metrics, dialect wormweekly.Dialect) ([]byte, error) {
	return metrics.Page(metrics.Readers[own.reader], time.Now(), dialect, own.resource...)
}
