// Package wormweekly has metrics that are counted exactly, as it is proved of the library that it links.
//
// A catalogue declares what may ever be recorded: instruments with the values of their attributes, and recorders with
// their budgets; a config declares readers and views. Open certifies that nothing can overflow, and gives the
// instruments, with a Recorder for each recorder and a Reader for each reader.
//
//	metrics, err := wormweekly.Open(catalogue, config)
//	orders, err := metrics.Instrument("orders")
//	orders.Add(2, wormweekly.String("country", "de"))
//	german, err := orders.Bind(wormweekly.String("country", "de"))
//	german.Add(1)
//
// Any goroutine records on an instrument. The recorders that the catalogue declares are its shards: a recording takes
// one that is free, goes on to the next where a budget is spent, then asks the spare budget, and only then is it
// refused. What is refused is counted by Instrument.Refused and told once for each reason to what Metrics.OnRefusal is
// given; TryAdd answers an error that wraps a Refusal, as ErrBudget.
//
// Recordings are kept in Go, each of them reserved, and cross into C many at a time.
//
// A goroutine that wants a recorder of its own takes one from Metrics.Recorders. It is for one at a time: ErrInUse
// tells another one that meets it; a Pool lends them to goroutines that come and go. Handles are freed by the garbage
// collector.
package wormweekly
