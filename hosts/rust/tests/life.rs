//! What a service lives on: budgets, grants, names and runs.
use std::thread::sleep;
use std::time::Duration;
use wormweekly::{
    Budget, Dialect, ExposureFault, Headroom, Key, Limit, Opened, Refusal, Resource, ResourceFault,
    RollFault, Rolled, SettleFault, Spare, TimeUnit, Total, open,
};

const CATALOGUE: &str = "format = 2
[[meter]]
name = 'shop'
[[meter.instrument]]
name = 'orders'
kind = 'counter'
range = [1, 100]
spare = 5
[[meter.instrument]]
name = 'returns'
kind = 'counter'
range = [1, 100]
[[recorder]]
name = 'day'
budget = [{ instrument = 0, amount = 3 }, { instrument = 1, amount = 9 }]
[[recorder]]
name = 'night'
budget = [{ instrument = 0, amount = 1 }]
";

const CONFIG: &str = "format = 1
[[reader]]
name = 'console'
";

fn opened() -> Opened {
    open(CATALOGUE, CONFIG, 0).expect("the plan is certified")
}

#[test]
fn recorders_ask_before_their_budget_ends() -> Result<(), Box<dyn std::error::Error>> {
    let Opened {
        metrics,
        mut recorders,
        ..
    } = opened();
    let [orders, returns] = [
        metrics.instrument("orders")?,
        metrics.instrument("returns")?,
    ];
    assert_eq!((recorders[0].number(), recorders[1].number()), (0, 1));
    let night = &mut recorders[1];
    assert_eq!(night.left(orders)?, 1);
    assert_eq!(night.left(returns)?, 0);
    night.record(orders, &[], 7)?;
    assert_eq!(night.left(orders)?, 0);
    assert_eq!(night.record(orders, &[], 7), Err(Refusal::Budget));
    assert_eq!(night.ask(orders, 6), Err(Refusal::NoSpare));
    assert_eq!(night.ask(returns, 1), Err(Refusal::NoSpare));
    night.ask(orders, 2)?;
    let budget = Budget {
        declared: 1,
        granted: 2,
        spent: 1,
        left: 2,
    };
    assert_eq!(night.budget(orders)?, budget);
    let spare = Spare {
        declared: 5,
        granted: 2,
        left: 3,
    };
    assert_eq!(orders.spare(), spare);
    night.record(orders, &[], 7)?;
    let day = &mut recorders[0];
    assert_eq!(day.left(orders)?, 3);
    let settled = metrics.settle(&mut recorders)?;
    assert_eq!(settled[0], Total { count: 2, sum: 14 });
    orders.close()?;
    assert_eq!(recorders[1].ask(orders, 1), Err(Refusal::Closed));
    Ok(())
}

#[test]
fn runs_of_one_plan_do_not_mix() -> Result<(), Box<dyn std::error::Error>> {
    let (mut one, other) = (opened(), opened());
    let orders = other.metrics.instrument("orders")?;
    let day = &mut one.recorders[0];
    assert_eq!(day.record(orders, &[], 1), Err(Refusal::Stranger));
    assert_eq!(day.budget(orders), Err(Refusal::Stranger));
    assert_eq!(day.left(orders), Err(Refusal::Stranger));
    assert_eq!(day.ask(orders, 0), Err(Refusal::Stranger));
    assert_eq!(one.readers[0].collect(orders, 1), Err(Refusal::Stranger));
    Ok(())
}

#[test]
fn instruments_are_named_where_there_is_no_recorder() -> Result<(), Box<dyn std::error::Error>> {
    let catalogue = CATALOGUE.split("[[recorder]]").next().unwrap_or_default();
    let opened = open(catalogue, CONFIG, 0)?;
    assert!(opened.recorders.is_empty());
    let orders = opened.metrics.instrument("orders")?;
    assert_eq!((orders.meter(), orders.number()), ("shop", 0));
    assert_eq!(opened.readers[0].name(), "console");
    Ok(())
}

#[test]
fn pages_have_all_instruments() -> Result<(), Box<dyn std::error::Error>> {
    let Opened {
        metrics,
        mut recorders,
        mut readers,
        ..
    } = opened();
    let console = &mut readers[0];
    console.expose()?;
    assert_eq!(console.prometheus(Dialect::Text)?, "");
    assert_eq!(metrics.page(console, 1, Dialect::Text)?, "");
    assert_eq!(metrics.page(console, 1, Dialect::OpenMetrics)?, "# EOF\n");
    recorders[0].record(metrics.instrument("orders")?, &[], 2)?;
    recorders[0].record(metrics.instrument("returns")?, &[], 1)?;
    let page = "# HELP orders_total \n# TYPE orders_total counter\norders_total{otel_scope_name=\"shop\"} 2\n\
        # HELP returns_total \n# TYPE returns_total counter\nreturns_total{otel_scope_name=\"shop\"} 1\n";
    assert_eq!(metrics.page(console, 2, Dialect::Text)?, page);
    let open = page
        .replace("orders_total ", "orders ")
        .replace("returns_total ", "returns ");
    let open = open
        .replace("orders{", "orders_total{")
        .replace("returns{", "returns_total{");
    let open = open + "# EOF\n";
    assert_eq!(metrics.page(console, 3, Dialect::OpenMetrics)?, open);
    let last = console.prometheus(Dialect::OpenMetricsCreated)?;
    assert!(
        last.ends_with("returns_created{otel_scope_name=\"shop\"} 0.000000000\n"),
        "{last}"
    );
    let shop = Resource::new(&[("service.name", "shop".into())]);
    let target = "# HELP target_info Target metadata\n# TYPE target_info gauge\n\
        target_info{service_name=\"shop\"} 1\n";
    assert_eq!(shop.page(Dialect::Text)?, target);
    assert_eq!(Resource::default().page(Dialect::OpenMetrics)?, "");
    let twice = Resource::new(&[("a", 1.into()), ("a", 2.into())]);
    assert_eq!(twice.page(Dialect::Text), Err(ResourceFault::RepeatedKey));
    let alike = Resource::new(&[("a.b", 1.into()), ("a_b", 2.into())]);
    assert_eq!(
        alike.page(Dialect::Text),
        Err(ResourceFault::LabelCollision)
    );
    let signs = Resource::new(&[("...", 1.into())]);
    assert_eq!(signs.page(Dialect::Text), Err(ResourceFault::BadLabel));
    Ok(())
}

#[test]
fn what_a_server_would_lose_is_told() -> Result<(), Box<dyn std::error::Error>> {
    let config = "format = 1\n[[reader]]\nname = 'delta'\ntemporality = { counter = 'delta' }\n";
    let mut opened = open(CATALOGUE, config, 0)?;
    let fault = ExposureFault::Fault("1 Delta of stream 0".to_owned());
    assert_eq!(opened.readers[0].expose(), Err(fault));
    Ok(())
}

#[test]
fn clients_choose_a_format() {
    let lines = include_str!(concat!(env!("CARGO_MANIFEST_DIR"), "/../accept.txt"));
    for line in lines.lines().skip(1) {
        let (word, accept) = line.split_once(' ').unwrap_or((line, ""));
        let dialect = match word {
            "text" => Dialect::Text,
            "openmetrics" => Dialect::OpenMetrics,
            _ => continue,
        };
        assert_eq!(Dialect::for_accept(accept), dialect, "{accept}");
    }
}

#[test]
fn a_run_goes_over_into_the_next() -> Result<(), Box<dyn std::error::Error>> {
    let Opened {
        metrics,
        mut recorders,
        mut readers,
        ..
    } = opened();
    let orders = metrics.instrument("orders")?;
    let old = recorders[0].prepare(orders, &[])?;
    recorders[0].record_prepared(&old, 5)?;
    let one = vec![recorders.remove(0)];
    let (mut one, fault) = metrics
        .roll_over(one, 10)
        .err()
        .expect("a recorder is missing");
    assert_eq!(fault, RollFault::Settle(SettleFault::RecorderMissing));
    one[0].record_prepared(&old, 6)?;
    recorders.append(&mut one);
    let none = metrics.roll_over(Vec::new(), 10).err();
    assert!(none.is_some_and(|(left, _)| left.is_empty()));
    let rolled = metrics
        .roll_over(recorders, 10)
        .map_err(|(_, fault)| fault)?;
    let Rolled { mut next, totals } = rolled;
    assert_eq!(totals[0], Total { count: 2, sum: 11 });
    assert_eq!(readers[0].collect(orders, 11)?.lines().count(), 3);
    assert_eq!(orders.close(), Err(Refusal::Closed));
    let day = &mut next.recorders[0];
    assert_eq!((day.name(), day.number()), ("day", 0));
    assert_eq!(day.record_prepared(&old, 1), Err(Refusal::Stranger));
    let orders = next.metrics.instrument("orders")?;
    assert_eq!(day.left(orders)?, 3);
    day.record(orders, &[], 9)?;
    let batch = next.readers[0].collect(orders, 20)?;
    assert!(
        batch.ends_with("point {} start=10 time=20 value=9\n"),
        "{batch}"
    );
    assert_eq!(next.metrics.settle(&mut next.recorders)?[0].sum, 9);
    Ok(())
}

#[test]
fn headrooms_are_told_of_each_instrument() {
    let Opened {
        metrics,
        mut recorders,
        ..
    } = opened();
    let most = i64::MAX as u64 / 100;
    let limit = Limit::SumHigh;
    let of = |declared| Headroom {
        declared,
        most,
        limit,
    };
    assert_eq!(metrics.headrooms(&mut recorders[1]), Ok(vec![of(9), of(9)]));
    let other = &mut opened().recorders[0];
    assert_eq!(metrics.headrooms(other), Err(Refusal::Stranger));
}

const QUEUE: &str = "format = 1
[[meter]]
name = 'queue'
[[meter.instrument]]
name = 'active'
kind = 'up_down_counter'
range = [-1, 1]
key = [{ name = 'lane', values = ['a', 'b'] }]
[[meter.instrument]]
name = 'took'
kind = 'histogram'
range = [0, 60000]
[[recorder]]
name = 'worker'
budget = [{ instrument = 0, amount = 5 }, { instrument = 1, amount = 1 }]
";

const LANE: Key = Key::new("lane");

// What a piece of work is counted as on every way out of it.
#[test]
fn work_is_counted_as_under_way_until_it_ends() -> Result<(), Box<dyn std::error::Error>> {
    let mut run = open(QUEUE, CONFIG, 0)?;
    let instruments = ["active", "took"].map(|name| run.metrics.instrument(name).cloned());
    let [Ok(active), Ok(took)] = instruments else {
        panic!("both instruments are declared");
    };
    let worker = &mut run.recorders[0];
    let lane = worker.prepare(&active, &[LANE.of("b")])?;
    let all = worker.prepare(&took, &[])?;
    let (made, counted) = worker.during(&lane, |worker| worker.left(&active));
    assert_eq!((made, counted), (Ok(4), Ok(())));
    let panicked = std::panic::catch_unwind(std::panic::AssertUnwindSafe(|| {
        worker.during(&lane, |_| panic!("the work fails"))
    }));
    assert!(panicked.is_err());
    let ((answer, timed), counted) =
        worker.during(&lane, |worker| worker.timed(&all, TimeUnit::Seconds, |_| 7));
    // One recording is left, which could not be taken back: the third piece of work is not counted in.
    assert_eq!((answer, timed, counted), (7, Ok(()), Err(Refusal::Budget)));
    let (answer, counted) = worker.during(&lane, |_| 8);
    assert_eq!((answer, counted), (8, Err(Refusal::Budget)));
    let totals = run.metrics.settle(&mut run.recorders)?;
    assert_eq!(totals[0], Total { count: 4, sum: 0 });
    assert_eq!(totals[1].count, 1);
    Ok(())
}

// What took longer than the range reaches is recorded as the greatest value, and told.
#[test]
fn durations_above_the_range_are_clamped_and_counted() -> Result<(), Box<dyn std::error::Error>> {
    let catalogue = QUEUE
        .replace("60000", "5")
        .replace("amount = 1 }", "amount = 4 }");
    let mut run = open(&catalogue, CONFIG, 0)?;
    let took = run.metrics.instrument("took")?;
    let worker = &mut run.recorders[0];
    let all = worker.prepare(took, &[])?;
    worker.record_duration(&all, TimeUnit::Milliseconds, Duration::from_millis(5))?;
    assert_eq!(took.clamped(), 0);
    worker.record_duration(&all, TimeUnit::Milliseconds, Duration::from_millis(6))?;
    worker.record_duration(&all, TimeUnit::Nanoseconds, Duration::MAX)?;
    let ((), timed) = worker.timed(&all, TimeUnit::Nanoseconds, |_| {
        sleep(Duration::from_millis(1))
    });
    assert_eq!((timed, took.clamped()), (Ok(()), 3));
    // What is refused is not counted as clamped.
    let again = worker.record_duration(&all, TimeUnit::Seconds, Duration::MAX);
    assert_eq!((again, took.clamped()), (Err(Refusal::Budget), 3));
    assert_eq!(
        run.metrics.settle(&mut run.recorders)?[1],
        Total { count: 4, sum: 20 }
    );
    Ok(())
}
