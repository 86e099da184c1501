package prometheus

import (
	"bytes"
	"fmt"
	"math/big"
	"strings"

	"wormweekly.example/wormweekly"
)

// A family of samples, by what stands before their values.
type family struct {
	isAdded bool
	head    []string
	series  []string
	values  map[string]*big.Int
	created map[string]string // when series began, which is when they first did
}

// A sum of pages: counters and histograms are added up, and of all else the last page tells.
type sum struct {
	families []*family
	byName   map[string]*family
}

// Adds a page that ended, or the last one.
func (own *sum) add(page []byte, isLast bool) error {
	help, of := "", &family{}
	for _, line := range strings.Split(string(page), "\n") {
		switch {
		case strings.HasPrefix(line, "# HELP "):
			help = line
		case strings.HasPrefix(line, "# TYPE "):
			words := strings.Split(line, " ")
			of = own.family(words[2], words[3])
			of.head = []string{help, line}
		case strings.HasPrefix(line, "# UNIT "):
			of.head = append(of.head, line)
		case line != "" && line != "# EOF":
			if err := of.add(line, isLast); err != nil {
				return err
			}
		}
	}
	return nil
}

func (own *sum) family(name, kind string) *family {
	if found, is := own.byName[name]; is {
		return found
	}
	made := &family{isAdded: kind == "counter" || kind == "histogram", values: map[string]*big.Int{}, created: map[string]string{}}
	if own.byName == nil {
		own.byName = map[string]*family{}
	}
	own.byName[name] = made
	own.families = append(own.families, made)
	return made
}

func (own *family) add(line string, isLast bool) error {
	at := strings.LastIndexByte(line, ' ')
	if own.isAdded && isCreated(line) {
		if _, is := own.created[line[:at]]; !is {
			own.created[line[:at]] = line[at+1:]
			own.series = append(own.series, line[:at])
		}
		return nil
	}
	value, is := new(big.Int).SetString(line[at+1:], 10)
	switch {
	case !is:
		return fmt.Errorf("a sample is no whole number: %q", line)
	case !own.isAdded && !isLast:
		return nil
	}
	series := line[:at]
	if before, is := own.values[series]; is {
		value.Add(value, before)
	} else {
		own.series = append(own.series, series)
	}
	own.values[series] = value
	return nil
}

// Whether a line of a counter or a histogram tells when a series began.
func isCreated(line string) bool {
	end := strings.IndexAny(line, "{ ")
	return strings.HasSuffix(line[:end], "_created")
}

// A page, added to one of runs that ended before.
func added(dialect wormweekly.Dialect, ended, page []byte, isLast bool) ([]byte, error) {
	var all sum
	if err := all.add(ended, false); err != nil {
		return nil, err
	}
	if err := all.add(page, isLast); err != nil {
		return nil, err
	}
	return all.text(dialect), nil
}

func (own *sum) text(dialect wormweekly.Dialect) []byte {
	var out bytes.Buffer
	for _, of := range own.families {
		for _, line := range of.head {
			fmt.Fprintln(&out, line)
		}
		for _, series := range of.series {
			if began, is := of.created[series]; is {
				fmt.Fprintln(&out, series, began)
			} else {
				fmt.Fprintln(&out, series, of.values[series])
			}
		}
	}
	if dialect != wormweekly.Text {
		fmt.Fprintln(&out, "# EOF")
	}
	return out.Bytes()
}
