package otlp

import (
	"errors"
	"fmt"
	"net/url"
	"os"
	"strconv"
	"strings"
	"time"

	"wormweekly.example/wormweekly"
)

const defaultEndpoint = "http://localhost:4318/v1/metrics"

// Settings are where metrics go, and how. What is left out is as with an empty environment. Resource is what produces
// them; where it has no "service.instance.id", an exporter draws one, so that no two processes have the same.
type Settings struct {
	Endpoint          string
	Headers           map[string]string
	Timeout, Interval time.Duration
	IsCompressed      bool
	Resource          []wormweekly.Attr
}

// ErrSettings says that a variable of the environment says what it cannot.
var ErrSettings = errors.New("otlp: the environment is at fault")

// OfEnvironment reads OTEL_EXPORTER_OTLP_ENDPOINT, _HEADERS, _TIMEOUT and _COMPRESSION, before which the same names
// with OTLP_METRICS go, OTEL_METRIC_EXPORT_INTERVAL, OTEL_RESOURCE_ATTRIBUTES and OTEL_SERVICE_NAME. An empty variable
// says nothing. An error wraps ErrSettings and names the first variable at fault.
func OfEnvironment() (Settings, error) {
	var of environment
	made := Settings{
		Endpoint:     of.endpoint(),
		Headers:      map[string]string{},
		Timeout:      of.milliseconds(own("TIMEOUT")),
		Interval:     of.milliseconds("OTEL_METRIC_EXPORT_INTERVAL"),
		IsCompressed: of.isCompressed(),
		Resource:     of.resource(),
	}
	for _, pair := range of.pairs(own("HEADERS")) {
		made.Headers[pair[0]] = pair[1]
	}
	made.fill()
	return made, of.fault
}

func (settings *Settings) fill() {
	if settings.Endpoint == "" {
		settings.Endpoint = defaultEndpoint
	}
	if settings.Timeout <= 0 {
		settings.Timeout = 10 * time.Second
	}
	if settings.Interval <= 0 {
		settings.Interval = time.Minute
	}
}

// An environment keeps the first fault.
type environment struct{ fault error }

func (of *environment) refuse(name, why, given string) {
	if of.fault == nil {
		of.fault = fmt.Errorf("%w: %s: %s: %q", ErrSettings, name, why, given)
	}
}

func text(name string) string { return strings.TrimSpace(os.Getenv(name)) }

// The name of the variable that counts: that of metrics, else that of all signals.
func own(word string) string {
	if name := "OTEL_EXPORTER_OTLP_METRICS_" + word; text(name) != "" {
		return name
	}
	return "OTEL_EXPORTER_OTLP_" + word
}

func (of *environment) endpoint() string {
	name := own("ENDPOINT")
	given := text(name)
	if given == "" {
		return ""
	}
	if read, err := url.Parse(given); err != nil || read.Host == "" || read.Scheme != "http" && read.Scheme != "https" {
		of.refuse(name, "no URL of http or https", given)
	}
	if strings.Contains(name, "METRICS") {
		return given
	}
	return strings.TrimRight(given, "/") + "/v1/metrics" // that of all signals is the folder of each signal's path
}

func (of *environment) milliseconds(name string) time.Duration {
	given := text(name)
	if given == "" {
		return 0
	}
	count, err := strconv.ParseInt(given, 10, 32)
	if err != nil || count < 1 {
		of.refuse(name, "no number of milliseconds from 1 to 2147483647", given)
	}
	return time.Duration(count) * time.Millisecond
}

func (of *environment) isCompressed() bool {
	name := own("COMPRESSION")
	given := text(name)
	if given != "" && given != "none" && given != "gzip" {
		of.refuse(name, "neither gzip nor none", given)
	}
	return given == "gzip"
}

func (of *environment) pairs(name string) (found [][2]string) {
	for _, pair := range strings.Split(text(name), ",") {
		if pair = strings.TrimSpace(pair); pair == "" {
			continue
		}
		key, value, isPair := strings.Cut(pair, "=")
		key, keyFault := url.PathUnescape(strings.TrimSpace(key))
		value, valueFault := url.PathUnescape(strings.TrimSpace(value))
		if !isPair || key == "" || keyFault != nil || valueFault != nil {
			of.refuse(name, "no key and value", pair)
		}
		found = append(found, [2]string{key, value})
	}
	return found
}

func (of *environment) resource() []wormweekly.Attr {
	var made []wormweekly.Attr
	for _, pair := range of.pairs("OTEL_RESOURCE_ATTRIBUTES") {
		made = append(made, wormweekly.String(pair[0], pair[1]))
	}
	if name := text("OTEL_SERVICE_NAME"); name != "" {
		made = append(made, wormweekly.String("service.name", name))
	}
	return lastOfEach(made)
}

// Of each key the last attribute, in the order of keys.
func lastOfEach(attributes []wormweekly.Attr) (made []wormweekly.Attr) {
	at := map[string]int{}
	for _, attribute := range attributes {
		if place, is := at[attribute.Key()]; is {
			made[place] = attribute
			continue
		}
		at[attribute.Key()] = len(made)
		made = append(made, attribute)
	}
	return made
}
