//! What a recording through the library costs, beside a map behind a mutex: prints the table of docs/PERFORMANCE.md, in
//! nanoseconds for a recording of each thread, the least of some runs.
//!
//!     cargo run --offline --release --example measure [RECORDINGS [RUNS]]     how many each thread makes, and how often
use std::collections::HashMap;
use std::env;
use std::error::Error;
use std::hint::black_box;
use std::sync::Mutex;
use std::thread;
use std::time::Instant;
use wormweekly::{
    Bound, Instrument, Opened, Prepared, Recorder, Shared, SharedInstrument, Value, open,
};

const THREADS: usize = 4;
const AT_ONCE: usize = 16;
const RUNS: usize = 3;

/// Three attributes, each with some values.
const KEYS: [(&str, &[&str]); 3] = [
    ("route", &["/", "/cart", "/pay", "/item"]),
    ("method", &["get", "post"]),
    ("region", &["north", "south"]),
];

const CONFIG: &str = "format = 1\n[[reader]]\nname = 'console'\n";

/// What is measured: how many threads there are, and whether each has an instrument of its own.
const COLUMNS: [(&str, usize, bool); 3] = [
    ("1 thread", 1, false),
    ("4 threads, one instrument", THREADS, false),
    ("4 threads, one each", THREADS, true),
];

const ROWS: [&str; 7] = [
    "three attributes at the call",
    "three attributes at the call, by any thread",
    "prepared",
    "bound, by any thread",
    "prepared, sixteen in one call, each",
    "a map of three owned texts",
    "a map of three borrowed texts",
];

fn main() -> Result<(), Box<dyn Error>> {
    let numbers: Result<Vec<usize>, _> = env::args().skip(1).map(|word| word.parse()).collect();
    let numbers = numbers?;
    let each = numbers.first().copied().unwrap_or(1_000_000);
    let mut least = [[f64::INFINITY; COLUMNS.len()]; ROWS.len()];
    for _ in 0..numbers.get(1).copied().unwrap_or(RUNS) {
        for (column, (_, threads, own)) in COLUMNS.iter().enumerate() {
            let [call, prepared, listed] = through_the_library(*threads, *own, each)?;
            let [any_call, any_bound] = by_any_thread(*threads, *own, each)?;
            let [owned, borrowed] = through_maps(*threads, *own, each);
            let times = [call, any_call, prepared, any_bound, listed, owned, borrowed];
            for (row, time) in times.into_iter().enumerate() {
                least[row][column] = least[row][column].min(time);
            }
        }
    }
    println!(
        "| Recording | {} |",
        COLUMNS.map(|(name, ..)| name).join(" | ")
    );
    println!("|---|{}", "---|".repeat(COLUMNS.len()));
    for (name, times) in ROWS.iter().zip(least) {
        println!(
            "| {name} | {} |",
            times.map(|time| format!("{time:.0}")).join(" | ")
        );
    }
    Ok(())
}

// A catalogue with an instrument and a recorder for each thread.
fn catalogue() -> String {
    let keys: Vec<String> = KEYS
        .iter()
        .map(|(name, values)| format!("{{ name = '{name}', values = {values:?} }}"))
        .collect();
    let mut text = String::from("format = 1\n[[meter]]\nname = 'measured'\n");
    for number in 0..THREADS {
        text += &format!(
            "[[meter.instrument]]\nname = 'requests_{number}'\nkind = 'counter'\nrange = [0, 100]\nkey = [{}]\n",
            keys.join(", ")
        );
    }
    for number in 0..THREADS {
        let budgets: Vec<String> = (0..THREADS)
            .map(|instrument| format!("{{ instrument = {instrument}, amount = 1000000000000 }}"))
            .collect();
        text += &format!(
            "[[recorder]]\nname = 'worker {number}'\nbudget = [{}]\n",
            budgets.join(", ")
        );
    }
    text
}

// The values of the attributes of a recording.
fn values_at(number: usize) -> [&'static str; 3] {
    [
        KEYS[0].1[number % 4],
        KEYS[1].1[number / 4 % 2],
        KEYS[2].1[number / 8 % 2],
    ]
}

fn attributes_at(number: usize) -> [(&'static str, Value<'static>); 3] {
    let values = values_at(number);
    [
        (KEYS[0].0, values[0].into()),
        (KEYS[1].0, values[1].into()),
        (KEYS[2].0, values[2].into()),
    ]
}

// How long each of so many calls takes that one thread for each recorder makes, in nanoseconds.
fn time_for<S: Send>(each: usize, states: Vec<S>, work: impl Fn(&mut S, usize) + Sync) -> f64 {
    let before = Instant::now();
    thread::scope(|scope| {
        for mut state in states {
            let work = &work;
            scope.spawn(move || {
                for number in 0..each {
                    work(&mut state, number);
                }
            });
        }
    });
    before.elapsed().as_nanos() as f64 / each as f64
}

struct Seat<'a> {
    recorder: &'a mut Recorder,
    instrument: &'a Instrument,
    prepared: Vec<Prepared>,
}

fn seats<'a>(
    opened: &'a mut Opened,
    threads: usize,
    own: bool,
) -> Result<Vec<Seat<'a>>, Box<dyn Error>> {
    let Opened {
        metrics, recorders, ..
    } = opened;
    let instruments = metrics.instruments();
    let recorders = recorders.iter_mut().take(threads).enumerate();
    recorders
        .map(|(number, recorder)| {
            let instrument = &instruments[if own { number } else { 0 }];
            let prepared: Result<Vec<_>, _> = (0..AT_ONCE)
                .map(|at| recorder.prepare(instrument, &attributes_at(at)))
                .collect();
            Ok(Seat {
                recorder,
                instrument,
                prepared: prepared?,
            })
        })
        .collect()
}

struct Any {
    instrument: SharedInstrument,
    bound: Vec<Bound>,
}

// What each thread records on, where the recorders are shards.
fn any_of(shared: &Shared, threads: usize, own: bool) -> Result<Vec<Any>, Box<dyn Error>> {
    let instruments = shared.instruments();
    (0..threads)
        .map(|number| {
            let instrument = instruments[if own { number } else { 0 }].clone();
            let bound: Result<Vec<_>, _> = (0..AT_ONCE)
                .map(|at| instrument.bind(&attributes_at(at)))
                .collect();
            let bound = bound?;
            Ok(Any { instrument, bound })
        })
        .collect()
}

fn by_any_thread(threads: usize, own: bool, each: usize) -> Result<[f64; 2], Box<dyn Error>> {
    let (shared, _) = open(&catalogue(), CONFIG, 0)?.share();
    let at_the_call = time_for(each, any_of(&shared, threads, own)?, |any, number| {
        any.instrument.add(1, &attributes_at(number));
    });
    let bound = time_for(each, any_of(&shared, threads, own)?, |any, number| {
        any.bound[number % AT_ONCE].add(1);
    });
    let count: u64 = shared.settle()?.iter().map(|total| total.count).sum();
    assert_eq!(count, (each * 2 * threads) as u64);
    Ok([at_the_call, bound])
}

fn through_the_library(threads: usize, own: bool, each: usize) -> Result<[f64; 3], Box<dyn Error>> {
    let mut opened = open(&catalogue(), CONFIG, 0)?;
    let at_the_call = time_for(each, seats(&mut opened, threads, own)?, |seat, number| {
        let done = seat
            .recorder
            .record(seat.instrument, &attributes_at(number), 1);
        done.expect("the recording is made");
    });
    let prepared = time_for(each, seats(&mut opened, threads, own)?, |seat, number| {
        let done = seat
            .recorder
            .record_prepared(&seat.prepared[number % AT_ONCE], 1);
        done.expect("the recording is made");
    });
    let at_once = time_for(
        each / AT_ONCE,
        seats(&mut opened, threads, own)?,
        |seat, _| {
            let list: [_; AT_ONCE] = std::array::from_fn(|at| (&seat.prepared[at], 1));
            seat.recorder
                .record_list(&list)
                .expect("the recordings are made");
        },
    );
    let all = each * 2 + each / AT_ONCE * AT_ONCE;
    let totals = opened.metrics.settle(&mut opened.recorders)?;
    let count: u64 = totals.iter().map(|total| total.count).sum();
    assert_eq!(count, (all * threads) as u64);
    Ok([at_the_call, prepared, at_once / AT_ONCE as f64])
}

fn through_maps(threads: usize, own: bool, each: usize) -> [f64; 2] {
    let count = if own { threads } else { 1 };
    let owned: Vec<Mutex<HashMap<[String; 3], i64>>> =
        (0..count).map(|_| Mutex::default()).collect();
    let maps = |number: usize| number.min(count - 1);
    let states: Vec<_> = (0..threads).map(|number| &owned[maps(number)]).collect();
    let owning = time_for(each, states, |map, number| {
        let key = values_at(black_box(number)).map(str::to_owned);
        *map.lock()
            .expect("no thread panics")
            .entry(key)
            .or_default() += 1;
    });
    let borrowed: Vec<Mutex<HashMap<[&str; 3], i64>>> =
        (0..count).map(|_| Mutex::default()).collect();
    let states: Vec<_> = (0..threads).map(|number| &borrowed[maps(number)]).collect();
    let borrowing = time_for(each, states, |map, number| {
        let key = values_at(black_box(number));
        *map.lock()
            .expect("no thread panics")
            .entry(key)
            .or_default() += 1;
    });
    [owning, borrowing]
}
