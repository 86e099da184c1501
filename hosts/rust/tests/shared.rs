//! Instruments on which any thread records.
use std::sync::atomic::{AtomicBool, Ordering};
use std::sync::{Arc, Mutex};
use std::thread;
use std::time::Duration;
use wormweekly::{
    Bound, Ended, PointValue, Reader, Refusal, Shared, SharedInstrument, Spare, TimeUnit, Total,
    Value, open,
};

// Two recorders with few orders, some spare ones, and many of the rest.
const CATALOGUE: &str = "format = 2
[[meter]]
name = 'shop'
[[meter.instrument]]
name = 'orders'
kind = 'counter'
range = [1, 100]
spare = 5
key = [{ name = 'country', values = ['de', 'fr'] }]
[[meter.instrument]]
name = 'requests'
kind = 'counter'
range = [1, 100]
[[meter.instrument]]
name = 'in_flight'
kind = 'up_down_counter'
range = [-1, 1]
spare = 3
[[meter.instrument]]
name = 'took'
kind = 'histogram'
range = [0, 5]
[[recorder]]
name = 'one'
budget = [
    { instrument = 0, amount = 3 },
    { instrument = 1, amount = 200000 },
    { instrument = 2, amount = 4 },
    { instrument = 3, amount = 10 },
]
[[recorder]]
name = 'two'
budget = [
    { instrument = 0, amount = 1 },
    { instrument = 1, amount = 200000 },
    { instrument = 2, amount = 1 },
]
";

const CONFIG: &str = "format = 1
[[reader]]
name = 'all'
[[reader]]
name = 'new'
temporality = { counter = 'delta' }
";

const DE: &[(&str, wormweekly::Value<'_>)] = &[("country", wormweekly::Value::Text("de"))];

fn shared() -> (Shared, Vec<Reader>) {
    let opened = open(CATALOGUE, CONFIG, 0).expect("the plan is certified");
    opened.share()
}

fn named(shared: &Shared, name: &str) -> SharedInstrument {
    shared.instrument(name).expect("it is declared")
}

// The sum that a reader's batch has, 0 where it has no point.
fn sum_of(reader: &mut Reader) -> i64 {
    let batch = reader.batch().ok().flatten().expect("it has collected");
    match batch.streams[0].points.first().map(|point| &point.value) {
        Some(PointValue::Sum(sum)) => *sum,
        None => 0,
        Some(other) => panic!("{other:?}"),
    }
}

#[test]
fn threads_share_instruments() {
    fn is_shared<T: Send + Sync + Clone>() {}
    is_shared::<Shared>();
    is_shared::<SharedInstrument>();
    is_shared::<Bound>();
}

#[test]
fn set_keys_that_a_host_writes_are_those_of_attributes() -> Result<(), Box<dyn std::error::Error>> {
    let (shared, _) = shared();
    let orders = named(&shared, "orders");
    let set = |entry: u16| [entry, 0, 0, 0, 0, 0, 0, 0];
    orders.add_set(set(1), 7);
    orders.bind_set(set(2)).add(20);
    for wrong in [0, 3] {
        orders.add_set(set(wrong), 1);
        assert!(orders.bind_set(set(wrong)).try_add(1).is_err());
    }
    let refused: Vec<u64> = orders.refused().iter().map(|(_, count)| *count).collect();
    assert_eq!(refused, [4]);
    assert_eq!(shared.settle()?[0], Total { count: 2, sum: 27 });
    Ok(())
}

#[test]
fn eight_threads_record_by_two_recorders_and_nothing_is_lost()
-> Result<(), Box<dyn std::error::Error>> {
    const TIMES: u64 = 40_000;
    let (shared, _) = shared();
    let requests = named(&shared, "requests");
    let bound = requests.bind(&[])?;
    thread::scope(|scope| {
        for number in 0..8 {
            let (requests, bound) = (&requests, &bound);
            scope.spawn(move || {
                (0..TIMES).for_each(|_| match number % 2 {
                    0 => requests.add(2, &[]),
                    _ => bound.add(2),
                });
            });
        }
    });
    let total = Total {
        count: 8 * TIMES,
        sum: i128::from(16 * TIMES),
    };
    assert_eq!(shared.settle()?[1], total);
    assert_eq!(requests.refused(), []);
    Ok(())
}

// Both budgets and all that is spare are recorded, by whatever thread, and no more.
#[test]
fn a_shard_that_is_spent_hands_on_and_then_the_spare_is_asked()
-> Result<(), Box<dyn std::error::Error>> {
    let (shared, _) = shared();
    let orders = named(&shared, "orders");
    for _ in 0..4 {
        orders.try_add(1, DE)?;
    }
    assert_eq!(orders.instrument().spare().granted, 0);
    for _ in 0..5 {
        orders.try_add(1, DE)?;
    }
    let spare = Spare {
        declared: 5,
        granted: 5,
        left: 0,
    };
    assert_eq!(orders.instrument().spare(), spare);
    for _ in 0..2 {
        assert_eq!(orders.try_add(1, DE), Err(Refusal::Budget));
    }
    assert_eq!(orders.refused(), [(Refusal::Budget, 2)]);
    assert_eq!(shared.settle()?[0], Total { count: 9, sum: 9 });
    Ok(())
}

#[test]
fn of_what_threads_race_for_each_recording_is_made_or_refused()
-> Result<(), Box<dyn std::error::Error>> {
    for _ in 0..50 {
        let (shared, _) = shared();
        let orders = named(&shared, "orders");
        thread::scope(|scope| {
            for _ in 0..8 {
                scope.spawn(|| (0..2).for_each(|_| orders.add(1, DE)));
            }
        });
        assert_eq!(shared.settle()?[0].count, 9);
        assert_eq!(orders.refused(), [(Refusal::Budget, 7)]);
    }
    Ok(())
}

#[test]
fn what_is_granted_by_hand_is_found() -> Result<(), Box<dyn std::error::Error>> {
    let catalogue = CATALOGUE.replace("spare = 5", "spare = 1");
    let (shared, _) = open(&catalogue, CONFIG, 0)?.share();
    let orders = named(&shared, "orders");
    orders.instrument().grant(1, 1)?;
    (0..6).for_each(|_| orders.add(1, DE));
    assert_eq!(orders.refused(), [(Refusal::Budget, 1)]);
    orders.instrument().close()?;
    assert_eq!(orders.try_add(1, DE), Err(Refusal::Closed));
    Ok(())
}

#[test]
fn refusals_are_counted_and_each_reason_is_told_once() -> Result<(), Box<dyn std::error::Error>> {
    let (shared, _) = shared();
    let orders = named(&shared, "orders");
    orders.add(1, &[("country", "uk".into())]);
    let told = Arc::new(Mutex::new(Vec::new()));
    let own = Arc::clone(&told);
    shared.on_refusal(move |instrument, refusal| {
        own.lock()
            .expect("nobody panics")
            .push(format!("{instrument} {refusal}"));
    });
    for _ in 0..3 {
        orders.add(1, &[("country", "uk".into())]);
        orders.add(101, DE);
    }
    assert!(orders.bind(&[]).is_err());
    drop(orders.time(TimeUnit::Seconds, &[]));
    let sentences = [
        "orders orders: key \"country\" has no value \"uk\"",
        "orders orders: value 101 is not in the range from 1 to 100",
        "orders orders: key \"country\" is missing",
    ];
    assert_eq!(*told.lock().expect("nobody panics"), sentences);
    let counts: Vec<u64> = orders.refused().iter().map(|(_, count)| *count).collect();
    assert_eq!(counts, [4, 2, 3]);
    let refusal = orders.try_add(1, &[("country", "uk".into())]).unwrap_err();
    assert_eq!(
        refusal.to_string(),
        "orders: key \"country\" has no value \"uk\""
    );
    assert_eq!(shared.settle()?[0].count, 0);
    Ok(())
}

#[test]
fn what_is_counted_in_is_counted_out() -> Result<(), Box<dyn std::error::Error>> {
    let (shared, _) = shared();
    let in_flight = named(&shared, "in_flight");
    // Of 4, 1 and 3 spare recordings, 4 are counted in at most, since each needs one more.
    let mut all: Vec<_> = (0..6).map(|_| in_flight.in_flight(&[])).collect();
    let counted = all.iter().filter(|one| one.is_counted()).count();
    assert!((3..=4).contains(&counted), "{counted}");
    assert_eq!(in_flight.refused(), [(Refusal::Budget, 6 - counted as u64)]);
    all.clear();
    let total = Total {
        count: 2 * counted as u64,
        sum: 0,
    };
    assert_eq!(shared.settle()?[2], total);
    Ok(())
}

#[test]
fn what_takes_longer_than_the_range_is_clamped_and_counted()
-> Result<(), Box<dyn std::error::Error>> {
    let (shared, _) = shared();
    let took = named(&shared, "took");
    took.record_duration(TimeUnit::Seconds, Duration::from_secs(5), &[]);
    assert_eq!(took.clamped(), 0);
    took.record_duration(TimeUnit::Seconds, Duration::from_secs(6), &[]);
    let timer = took.time(TimeUnit::Nanoseconds, &[]);
    thread::sleep(Duration::from_millis(1));
    drop(timer);
    assert_eq!(took.clamped(), 2);
    assert_eq!(shared.settle()?[3], Total { count: 3, sum: 15 });
    Ok(())
}

// What a delta reader collects, in each run to its end, is all that was recorded.
#[test]
fn runs_go_over_under_traffic_and_nothing_is_lost() -> Result<(), Box<dyn std::error::Error>> {
    let (shared, mut readers) = shared();
    let requests = named(&shared, "requests");
    let bound = requests.bind(&[])?;
    let is_over = AtomicBool::new(false);
    let (mut settled, mut collected) = (0, 0);
    let made = thread::scope(|scope| -> Result<u64, Box<dyn std::error::Error>> {
        let threads: Vec<_> = (0..4)
            .map(|_| {
                scope.spawn(|| {
                    let mut made = 0;
                    while !is_over.load(Ordering::Relaxed) {
                        made += u64::from(bound.try_add(1).is_ok());
                    }
                    made
                })
            })
            .collect();
        for start in 1..20 {
            readers[1].collect_kept(&requests.instrument(), start)?;
            collected += sum_of(&mut readers[1]);
            let Ended {
                totals,
                metrics,
                readers: next,
            } = shared.roll_over(start)?;
            settled += totals[1].count;
            readers[1].collect_kept(metrics.instrument("requests")?, start)?;
            collected += sum_of(&mut readers[1]);
            readers = next;
        }
        is_over.store(true, Ordering::Relaxed);
        Ok(threads.into_iter().map(|one| one.join().unwrap_or(0)).sum())
    })?;
    readers[1].collect_kept(&requests.instrument(), 30)?;
    collected += sum_of(&mut readers[1]);
    assert_eq!(settled + shared.settle()?[1].count, made);
    assert_eq!(collected, made as i64);
    Ok(())
}

#[test]
fn an_undeclared_value_is_another() {
    let (shared, _) = shared();
    let orders = named(&shared, "orders");
    let known = |key, value| orders.known_or(key, Value::Text(value), Value::Text("fr"));
    assert_eq!(known("country", "de"), Value::Text("de"));
    assert_eq!(known("country", "uk"), Value::Text("fr"));
    assert_eq!(known("town", "uk"), Value::Text("uk"));
    assert_eq!(orders.replaced(), 1);
}

#[test]
fn what_is_left_of_budgets() -> Result<(), Box<dyn std::error::Error>> {
    let (shared, _) = shared();
    assert_eq!(shared.part_left(), 1.0);
    for left in (0..9).rev() {
        named(&shared, "orders").try_add(1, DE)?;
        assert_eq!(shared.part_left(), f64::from(left) / 9.0);
    }
    shared.roll_over(1)?;
    assert_eq!(shared.part_left(), 1.0);
    Ok(())
}

#[test]
fn all_types_are_shown() {
    let opened = open(CATALOGUE, CONFIG, 0).expect("the plan is certified");
    let shown = format!("{:?} {:?} {:?}", opened, opened.recorders, opened.readers);
    assert!(shown.contains("Instrument { name: \"orders\", .. }"));
    assert!(
        shown.contains("Recorder { name: \"two\", .. }")
            && shown.contains("Reader { name: \"new\", .. }")
    );
    let (shared, _) = opened.share();
    let bound = named(&shared, "orders").bind(DE).expect("it is declared");
    let shown = format!("{shared:?} {bound:?} {:?}", bound.in_flight());
    assert!(shown.contains("SharedInstrument { name: \"orders\", .. }"));
    let fault = open("", CONFIG, 0).unwrap_err();
    assert!(fault.to_string().starts_with("catalogue"));
}

#[test]
fn a_block_goes_over_and_is_counted_out_in_no_run() -> Result<(), Box<dyn std::error::Error>> {
    let (shared, _) = shared();
    let in_flight = named(&shared, "in_flight");
    let block = in_flight.in_flight(&[]);
    assert_eq!(shared.roll_over(1)?.totals[2], Total { count: 1, sum: 1 });
    drop(block);
    drop(in_flight.in_flight(&[]));
    assert_eq!(shared.settle()?[2], Total { count: 2, sum: 0 });
    Ok(())
}

#[test]
fn where_nobody_may_record_it_is_refused() -> Result<(), Box<dyn std::error::Error>> {
    let catalogue = CATALOGUE.split("[[recorder]]").next().unwrap_or_default();
    let (shared, _) = open(catalogue, CONFIG, 0)?.share();
    let orders = named(&shared, "orders");
    assert_eq!(orders.try_add(1, DE), Err(Refusal::UnknownRecorder));
    assert_eq!(orders.bind(DE).map(|_| ()), Err(Refusal::UnknownRecorder));
    assert_eq!((orders.name(), orders.meter()), ("orders", "shop"));
    assert!(shared.settle().is_err() && shared.roll_over(1).is_err());
    Ok(())
}
