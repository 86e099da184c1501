package wormweekly_test

import (
	"errors"
	"fmt"
	"time"

	"wormweekly.example/wormweekly"
)

const catalogue = `format = 1
[[meter]]
name = 'shop'
[[meter.instrument]]
name = 'orders'
kind = 'counter'
range = [1, 100]
key = [{ name = 'country', values = ['de', 'fr'] }]
[[recorder]]
name = 'till'
budget = [{ instrument = 0, amount = 1000 }]
`

const config = `format = 1
[[reader]]
name = 'console'
`

func check(err error) {
	if err != nil {
		panic(err)
	}
}

func Example() {
	metrics, err := wormweekly.Open(catalogue, config) // two texts; ErrFault tells the first fault
	check(err)
	orders := metrics.Instruments[0]
	orders.Add(2, wormweekly.String("country", "de"))              // in any goroutine
	german, err := orders.Bind(wormweekly.String("country", "de")) // looked up once
	check(err)
	german.Add(1)
	err = orders.TryAdd(1, wormweekly.String("country", "uk"))
	fmt.Println(errors.Is(err, wormweekly.ErrAttributes), orders.Refused()) // not counted
	ended, err := metrics.RollOver(time.Now())                              // and the next run begins, in the same seats
	check(err)
	fmt.Println(ended.Totals[0].Sum, "in", ended.Totals[0].Count, "recordings")
	// Output:
	// true map[UnknownValue:1]
	// 3 in 2 recordings
}
