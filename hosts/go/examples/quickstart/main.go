// The quick start: a plan is certified, two orders are recorded and one is refused, and what is collected is printed.
package main

import (
	"errors"
	"fmt"
	"log"
	"time"

	"wormweekly.example/wormweekly"
)

const catalogue = `format = 1
[[meter]]
name = 'shop'
[[meter.instrument]]
name = 'orders'
kind = 'counter'
range = [1, 100]
key = [{ name = 'country', values = ['de', 'fr'] }]
[[recorder]]
name = 'till'
budget = [{ instrument = 0, amount = 1000 }]
`

const config = `format = 1
[[reader]]
name = 'console'
`

func main() {
	if err := run(); err != nil {
		log.Fatal(err)
	}
}

func run() error {
	metrics, err := wormweekly.Open(catalogue, config, wormweekly.Since(time.Unix(0, 0)))
	if err != nil {
		return err
	}
	orders := metrics.Instruments[0]
	orders.Add(2, wormweekly.String("country", "de"))
	french, err := orders.Bind(wormweekly.String("country", "fr"))
	if err != nil {
		return err
	}
	french.Add(1)
	if err := orders.TryAdd(1, wormweekly.String("country", "uk")); errors.Is(err, wormweekly.ErrUnknownValue) {
		fmt.Println(err)
	}
	text, err := metrics.Readers[0].Text(orders, time.Unix(0, 1000))
	if err != nil {
		return err
	}
	fmt.Print(text)
	totals, err := metrics.Settle()
	if err != nil {
		return err
	}
	for _, total := range totals {
		fmt.Printf("settled: %v in %d recordings\n", total.Sum, total.Count)
	}
	return nil
}
