// A thousand goroutines record at once over eight recorders. It fails where a total is another. How long recordings
// waited for a recorder or an instrument stands beside what else takes long on this machine.
//
// What a call takes beside is the scheduler's: a goroutine that comes back from C is run again when its turn comes.
package main

import (
	"fmt"
	"log"
	"runtime"
	"sync"
	"time"

	"wormweekly.example/wormweekly"
	"wormweekly.example/wormweekly/internal/cross"
)

const (
	goroutines = 1000
	recordings = 200 // of each, half of them with attributes at the call
	recorders  = 8
)

const catalogue = `format = 1
[[meter]]
name = 'crowd'
[[meter.instrument]]
name = 'took'
kind = 'histogram'
range = [0, 100]
boundaries = [10]
key = [{ name = 'route', values = ['/', '/cart'] }]
`

func open() (*wormweekly.Metrics, error) {
	text := catalogue
	for number := 0; number < recorders; number++ {
		text += fmt.Sprintf("[[recorder]]\nname = '%d'\nbudget = [{ instrument = 0, amount = %d }]\n", number, goroutines*recordings)
	}
	return wormweekly.Open(text, "format = 1\n[[reader]]\nname = 'all'\n")
}

// The longest call, and how many took longer than a millisecond.
func waits(work func(at int)) (longest time.Duration, long int) {
	var mutex sync.Mutex
	var all sync.WaitGroup
	for number := 0; number < goroutines; number++ {
		all.Add(1)
		go func() {
			defer all.Done()
			for at := 0; at < recordings; at++ {
				began := time.Now()
				work(at)
				if took := time.Since(began); took > longestOf(&mutex, &longest) || took > time.Millisecond {
					mutex.Lock()
					if took > longest {
						longest = took
					}
					if took > time.Millisecond {
						long++
					}
					mutex.Unlock()
				}
				runtime.Gosched()
			}
		}()
	}
	all.Wait()
	return longest, long
}

func longestOf(mutex *sync.Mutex, longest *time.Duration) time.Duration {
	mutex.Lock()
	defer mutex.Unlock()
	return *longest
}

// Recordings, half of them with attributes at the call.
func recorded() (longest time.Duration, long int, waited wormweekly.Waits) {
	metrics, err := open()
	if err != nil {
		log.Fatal(err)
	}
	took, route := metrics.Instruments[0], wormweekly.String("route", "/")
	bound, err := took.Bind(route)
	if err != nil {
		log.Fatal(err)
	}
	longest, long = waits(func(at int) {
		if at%2 == 0 {
			took.Record(1, route)
		} else {
			bound.Record(1)
		}
	})
	totals, err := metrics.Settle()
	if err != nil || totals[0].Count != goroutines*recordings {
		log.Fatal(err, totals)
	}
	return longest, long, metrics.Waits()
}

func idle() (longest time.Duration, long int) { return waits(func(int) {}) }

func mapped() (longest time.Duration, long int) {
	var mutex sync.Mutex
	counts := map[string]int{}
	return waits(func(int) {
		mutex.Lock()
		counts["/"]++
		mutex.Unlock()
	})
}

// A call of C that does nothing, as often as a recording calls C.
func crossed() (longest time.Duration, long int) {
	return waits(func(at int) {
		if at%2 == 0 {
			cross.Nothing()
		}
	})
}

type floor struct {
	name string
	run  func() (longest time.Duration, long int)
}

var floors = []floor{{"calls of C that do nothing", crossed}, {"nothing", idle}, {"a mutex around a map", mapped}}

func main() {
	longest, long, waited := recorded()
	fmt.Printf("%d recordings of %d goroutines over %d recorders: %d waited for one, the longest %v; calls above 1ms: %d, the longest %v\n",
		goroutines*recordings, goroutines, recorders, waited.Count, waited.Longest, long, longest)
	for _, floor := range floors {
		longest, long := floor.run()
		fmt.Printf("    %s: above 1ms: %d, the longest %v\n", floor.name, long, longest)
	}
}
