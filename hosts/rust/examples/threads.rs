//! Four threads record, a fifth collects meanwhile, and the totals are settled.
use std::error::Error;
use std::thread;
use wormweekly::{Instrument, Opened, Reader, Recorder, Refusal, open};

const RECORDINGS: i64 = 1_000_000;

const CATALOGUE: &str = "format = 1
[[meter]]
name = 'shop'
[[meter.instrument]]
name = 'orders'
kind = 'counter'
range = [1, 100]
key = [{ name = 'country', values = ['de', 'fr'] }, { name = 'paid', values = [true, false] }]
[[recorder]]
name = 'worker 0'
budget = [{ instrument = 0, amount = 1000000 }]
[[recorder]]
name = 'worker 1'
budget = [{ instrument = 0, amount = 1000000 }]
[[recorder]]
name = 'worker 2'
budget = [{ instrument = 0, amount = 1000000 }]
[[recorder]]
name = 'worker 3'
budget = [{ instrument = 0, amount = 1000000 }]
";

const CONFIG: &str = "format = 1
[[reader]]
name = 'console'
temporality = { counter = 'delta' }
";

fn main() -> Result<(), Box<dyn Error>> {
    let Opened {
        metrics,
        mut recorders,
        mut readers,
        ..
    } = open(CATALOGUE, CONFIG, 0)?;
    let orders = metrics.instrument("orders")?;
    let console = &mut readers[0];
    let collected = run(orders, &mut recorders, console)?;
    let last = points_sum(&console.collect(orders, 1_000_000)?);
    println!("collected in all: {}", collected + last);
    let refused = recorders[0].record(
        orders,
        &[("country", "de".into()), ("paid", true.into())],
        1,
    );
    println!("past the budget: {refused:?}");
    for total in metrics.settle(&mut recorders)? {
        println!("settled: {} in {} recordings", total.sum, total.count);
    }
    Ok(())
}

// Records in a thread for each recorder, and answers what was collected meanwhile.
fn run(
    orders: &Instrument,
    recorders: &mut [Recorder],
    console: &mut Reader,
) -> Result<i64, Refusal> {
    thread::scope(|scope| {
        let workers: Vec<_> = recorders
            .iter_mut()
            .map(|own| scope.spawn(move || work(orders, own)))
            .collect();
        let collector = scope.spawn(move || collect(orders, console));
        for worker in workers {
            worker.join().expect("a worker does not panic")?;
        }
        collector.join().expect("the collector does not panic")
    })
}

fn work(orders: &Instrument, own: &mut Recorder) -> Result<(), Refusal> {
    let two = own.prepare(orders, &[("country", "de".into()), ("paid", true.into())])?;
    for _ in 0..RECORDINGS {
        own.record_prepared(&two, 2)?;
    }
    Ok(())
}

fn collect(orders: &Instrument, console: &mut Reader) -> Result<i64, Refusal> {
    let mut sum = 0;
    for now in 1..=100 {
        sum += points_sum(&console.collect(orders, now)?);
        thread::yield_now();
    }
    Ok(sum)
}

// The sum of the values of the points in the text of a batch.
fn points_sum(batch: &str) -> i64 {
    let values = batch.lines().filter_map(|line| line.rsplit_once(" value="));
    values
        .map(|(_, value)| value.parse::<i64>().expect("a sum is a number"))
        .sum()
}
