//! A plan is certified, orders are recorded and one is refused, what was collected is printed, and the next run begins.
use std::error::Error;
use wormweekly::{Opened, Rolled};

const CATALOGUE: &str = "format = 1
[[meter]]
name = 'shop'
[[meter.instrument]]
name = 'orders'
kind = 'counter'
range = [1, 100]
key = [{ name = 'country', values = ['de', 'fr'] }]
[[recorder]]
name = 'till'
budget = [{ instrument = 0, amount = 1000 }]
";

const CONFIG: &str = "format = 1
[[reader]]
name = 'console'
";

fn main() -> Result<(), Box<dyn Error>> {
    let opened = wormweekly::open(CATALOGUE, CONFIG, 0)?;
    let Opened {
        metrics,
        mut recorders,
        mut readers,
        ..
    } = opened;
    let orders = metrics.instrument("orders")?;
    let till = &mut recorders[0];
    till.record(orders, &[("country", "de".into())], 2)?;
    if let Err(refusal) = till.record(orders, &[("country", "uk".into())], 1) {
        println!("not recorded: {refusal}");
    }
    // A budget ends: look at what is left in time, and go on in the next run of the plan.
    println!("left: {}", till.left(orders)?);
    let rolled = metrics.roll_over(recorders, 1_000);
    let Rolled { mut next, totals } = rolled.map_err(|(_, fault)| fault)?;
    print!("{}", readers[0].collect(orders, 1_000)?);
    println!(
        "settled: {} in {} recordings",
        totals[0].sum, totals[0].count
    );

    let orders = next.metrics.instrument("orders")?;
    next.recorders[0].record(orders, &[("country", "fr".into())], 3)?;
    print!("{}", next.readers[0].collect(orders, 2_000)?);
    for total in next.metrics.settle(&mut next.recorders)? {
        println!("settled: {} in {} recordings", total.sum, total.count);
    }
    Ok(())
}
