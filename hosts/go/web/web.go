// Package web measures handlers of HTTP.
//
//	handler, err := web.Measure(handler, metrics, web.Route(routeOf))
package web

import (
	"bufio"
	"net"
	"net/http"
	"time"

	"wormweekly.example/wormweekly"
)

// A measure is an instrument, with those of the keys "method", "route" and "status" that it declares.
type measure struct {
	instrument *wormweekly.Instrument
	keys       []string
}

type measured struct {
	handler                      http.Handler
	requests, duration, inFlight *measure
	names                        [3]string
	route                        func(*http.Request) string
	other                        wormweekly.Attr
	unit                         time.Duration
}

// An Option says more of how a handler is measured.
type Option func(*measured)

// Names are those of the instruments: of one that counts requests, "http.requests" if it is not said; of one that takes
// their time, "http.duration"; and of an up-down counter of those under way, "http.in_flight". Where one is empty,
// nothing is recorded.
func Names(requests, duration, inFlight string) Option {
	return func(own *measured) { own.names = [3]string{requests, duration, inFlight} }
}

// Route says what the route of a request is, its path if it is not said.
func Route(of func(*http.Request) string) Option { return func(own *measured) { own.route = of } }

// Unit is that of the duration, a millisecond if it is not said.
func Unit(unit time.Duration) Option { return func(own *measured) { own.unit = unit } }

// Measure measures a handler. A request counts when its answer ends, whatever becomes of it. The instruments are told
// of a method, a route and a status as far as they declare the keys "method", "route" and "status"; what they do not
// declare of these is recorded as "other", which the catalogue has to declare. The error says which instrument there is
// not.
func Measure(handler http.Handler, metrics *wormweekly.Metrics, options ...Option) (http.Handler, error) {
	own := &measured{handler: handler, names: [3]string{"http.requests", "http.duration", "http.in_flight"},
		route: func(request *http.Request) string { return request.URL.Path },
		other: wormweekly.String("", "other"), unit: time.Millisecond}
	for _, option := range options {
		option(own)
	}
	for at, place := range []**measure{&own.requests, &own.duration, &own.inFlight} {
		if own.names[at] == "" {
			continue
		}
		instrument, err := metrics.Instrument(own.names[at])
		if err != nil {
			return nil, err
		}
		*place = measureOf(instrument)
	}
	return own, nil
}

func measureOf(instrument *wormweekly.Instrument) *measure {
	made := &measure{instrument: instrument}
	for _, key := range []string{"method", "route", "status"} {
		if instrument.Declares(key) {
			made.keys = append(made.keys, key)
		}
	}
	return made
}

// What is said of a request; of its status nothing, before it is known.
type said struct {
	method, route string
	status        int
}

func (own *measured) attributes(of *measure, about said) []wormweekly.Attr {
	made := make([]wormweekly.Attr, 0, 3)
	for _, key := range of.keys {
		var attribute wormweekly.Attr
		switch key {
		case "method":
			attribute = wormweekly.String(key, about.method)
		case "route":
			attribute = wormweekly.String(key, about.route)
		default:
			if about.status == 0 {
				continue
			}
			attribute = wormweekly.Int(key, int64(about.status))
		}
		made = append(made, of.instrument.KnownOr(attribute, own.other))
	}
	return made
}

func (own *measured) ServeHTTP(writer http.ResponseWriter, request *http.Request) {
	about := said{method: request.Method, route: own.route(request)}
	out := func() {}
	if own.inFlight != nil {
		out = own.inFlight.instrument.InFlight(own.attributes(own.inFlight, about)...)
	}
	began, given := time.Now(), &answer{ResponseWriter: writer}
	about.status = http.StatusInternalServerError // where the handler panics
	defer func() {
		out()
		if given.status != 0 {
			about.status = given.status
		}
		own.record(about, time.Since(began))
	}()
	own.handler.ServeHTTP(given, request)
	about.status = http.StatusOK
}

func (own *measured) record(about said, took time.Duration) {
	if own.duration != nil {
		own.duration.instrument.AddDuration(took, own.unit, own.attributes(own.duration, about)...)
	}
	if own.requests != nil {
		own.requests.instrument.Add(1, own.attributes(own.requests, about)...)
	}
}

// An answer keeps its status.
type answer struct {
	http.ResponseWriter
	status int
}

func (own *answer) WriteHeader(status int) {
	if own.status == 0 && status >= 200 {
		own.status = status
	}
	own.ResponseWriter.WriteHeader(status)
}

// Unwrap is for http.ResponseController.
func (own *answer) Unwrap() http.ResponseWriter { return own.ResponseWriter }

// Flush sends what is written, where the server can.
func (own *answer) Flush() {
	if flusher, is := own.ResponseWriter.(http.Flusher); is {
		flusher.Flush()
	}
}

// Hijack takes the connection over, where the server gives it.
func (own *answer) Hijack() (net.Conn, *bufio.ReadWriter, error) {
	if hijacker, is := own.ResponseWriter.(http.Hijacker); is {
		return hijacker.Hijack()
	}
	return nil, nil, http.ErrNotSupported
}
