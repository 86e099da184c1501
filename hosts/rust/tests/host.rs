//! What a host sees of the library.
use std::thread;
use wormweekly::{
    About, Kind, ListRefusal, OpenFault, Opened, OwnedValue, Point, PointValue, Refusal, Resource,
    ResourceFault, SettleFault, Total, Value, lint, open, open_certified,
};

/// Attributes with a value, and what recording them is refused for.
type Attributes<'a> = &'a [(&'a str, Value<'a>)];

type Refused<'a> = (Attributes<'a>, i64, Refusal);

const CATALOGUE: &str = "format = 1
[[meter]]
name = 'shop'
[[meter.instrument]]
name = 'requests'
kind = 'counter'
range = [1, 100]
key = [{ name = 'route', values = ['/', '/cart'] }, { name = 'status', values = [200, 404] }, { name = 'cached', values = [true, false], optional = true }]
[[meter.instrument]]
name = 'balance'
kind = 'up_down_counter'
range = [-50, 50]
[[recorder]]
name = 'first'
budget = [{ instrument = 0, amount = 5 }, { instrument = 1, amount = 3 }]
[[recorder]]
name = 'second'
budget = [{ instrument = 0, amount = 2000 }, { instrument = 1, amount = 3 }]
";

const CONFIG: &str = "format = 1
[[reader]]
name = 'console'
";

fn opened() -> Opened {
    open(CATALOGUE, CONFIG, 0).expect("the plan is certified")
}

#[test]
fn faults_are_told() {
    let told = |catalogue: &str, config: &str| match open(catalogue, config, 0).err() {
        Some(OpenFault::Fault(text)) => text,
        other => panic!("{other:?}"),
    };
    let cases = [
        (
            "format = 4\n",
            CONFIG,
            "catalogue:1:1: catalogue format 4 is not supported (only 1 to 3)",
        ),
        (
            &CATALOGUE.replace("'up_down_counter'", "'up_down_countre'"),
            CONFIG,
            "catalogue:11:1: instrument 1 \"balance\": unknown kind \"up_down_countre\"; expected counter, up_down_counter, histogram or gauge; did you mean up_down_counter?",
        ),
        (
            CATALOGUE,
            "format = 2\n",
            "config:1:1: config format 2 is not supported (only 1)",
        ),
    ];
    for (catalogue, config, text) in cases {
        assert_eq!(told(catalogue, config), text);
        let linted = lint(catalogue, config);
        assert_eq!(linted, Err(OpenFault::Fault(text.to_owned())));
    }
    // More words than there is room for at first.
    let reader = "é".repeat(120);
    let views = "[[view]]\ninstrument_name = 'balance'\n".repeat(2);
    let text = told(
        CATALOGUE,
        &format!("format = 1\n[[reader]]\nname = '{reader}'\n{views}"),
    );
    assert!(
        text.starts_with("config:6:1: ") && text.len() > 512,
        "{text}"
    );
    assert!(text.ends_with("have one identity: the same name in one meter"));
}

#[test]
fn remarks_are_told() -> Result<(), Box<dyn std::error::Error>> {
    assert_eq!(lint(CATALOGUE, CONFIG)?, [""; 0]);
    let unread = lint(CATALOGUE, "format = 1\n")?;
    assert_eq!(
        unread,
        ["config:1:1: there is no reader, so nothing is collected"]
    );
    let mut views = String::from(CONFIG);
    for number in 0..150 {
        views += &format!("[[view]]\ninstrument_name = 'none {number}'\n");
    }
    let many = lint(CATALOGUE, &views)?;
    assert_eq!(
        (many.len(), many[100].as_str()),
        (101, "and 50 more remarks")
    );
    assert!(
        many[99].starts_with("config:202:1: view 99 "),
        "{}",
        many[99]
    );
    Ok(())
}

#[test]
fn names_are_found() {
    let opened = opened();
    let names: Vec<_> = opened
        .metrics
        .instruments()
        .iter()
        .map(|one| (one.meter(), one.name(), one.number()))
        .collect();
    assert_eq!(names, [("shop", "requests", 0), ("shop", "balance", 1)]);
    assert_eq!(
        opened
            .recorders
            .iter()
            .map(|one| one.name())
            .collect::<Vec<_>>(),
        ["first", "second"]
    );
    assert_eq!(opened.readers[0].name(), "console");
    assert!(opened.metrics.instrument("orders").is_err());
}

#[test]
fn refusals_come_first_and_change_nothing() -> Result<(), Box<dyn std::error::Error>> {
    let Opened {
        metrics,
        mut recorders,
        mut readers,
        ..
    } = opened();
    let requests = metrics.instrument("requests")?;
    let first = &mut recorders[0];
    let cases: [Refused<'_>; 6] = [
        (
            &[("route", "/".into()), ("route", "/".into())],
            1,
            Refusal::DuplicateKey(About::default()),
        ),
        (
            &[("route", "/".into()), ("colour", "red".into())],
            1,
            Refusal::UnknownKey(About::default()),
        ),
        (
            &[("route", "/admin".into()), ("status", 200.into())],
            1,
            Refusal::UnknownValue(About::default()),
        ),
        (
            &[("route", "/".into())],
            1,
            Refusal::MissingKey(About::default()),
        ),
        (
            &[("route", "/".into()), ("status", 200.into())],
            0,
            Refusal::ValueRange(About::default()),
        ),
        (
            &[("a", "".into()); 9],
            1,
            Refusal::DuplicateKey(About::default()),
        ),
    ];
    for (attributes, value, refusal) in cases {
        assert_eq!(first.record(requests, attributes, value), Err(refusal));
    }
    let told: [(Attributes<'_>, i64, &str); 7] = [
        (
            &[("route", "/".into()), ("route", "/".into())],
            1,
            "requests: key \"route\" stands twice",
        ),
        (
            &[("colour", "red".into()), ("route", "/".into())],
            1,
            "requests: key \"colour\" is not declared",
        ),
        (
            &[("route", "/admin".into()), ("status", 200.into())],
            1,
            "requests: key \"route\" has no value \"/admin\"",
        ),
        (
            &[("route", "/".into()), ("status", 201.into())],
            1,
            "requests: key \"status\" has no value 201",
        ),
        (
            &[("route", "/".into())],
            1,
            "requests: key \"status\" is missing",
        ),
        (
            &[("route", "\u{1b}[2J".into()), ("status", 200.into())],
            1,
            "requests: key \"route\" has no value \"\\u{1b}[2J\"",
        ),
        (
            &[("route", "/".into()), ("status", 200.into())],
            0,
            "requests: value 0 is not in the range from 1 to 100",
        ),
    ];
    for (attributes, value, words) in told {
        let refusal = first.record(requests, attributes, value).unwrap_err();
        assert_eq!(refusal.to_string(), words);
    }
    let long = "x".repeat(100_000);
    let refusal = first
        .record(requests, &[(&long, "".into())], 1)
        .unwrap_err()
        .to_string();
    assert!(refusal.starts_with("requests: key \"xxx") && refusal.ends_with("x.."));
    assert_eq!(refusal.len(), "requests: ".len() + 402);
    // Of many attributes the first ones are enough to refuse them: to compare all would take minutes.
    let names: Vec<String> = (0..100_000).map(|number| number.to_string()).collect();
    let many: Vec<_> = names.iter().map(|name| (name.as_str(), 1.into())).collect();
    let refusal = first.record(requests, &many, 1).unwrap_err();
    assert_eq!(refusal.to_string(), "requests: key \"0\" is not declared");
    let unbound = first.prepare(requests, &[("route", "/".into())]);
    assert_eq!(
        unbound.map(|_| ()).unwrap_err().to_string(),
        "requests: key \"status\" is missing"
    );
    assert_eq!(readers[0].collect(requests, 10)?, "collected 10 0\n");
    for value in 1..=5 {
        first.record(
            requests,
            &[
                ("status", 404.into()),
                ("cached", true.into()),
                ("route", "/cart".into()),
            ],
            value,
        )?;
    }
    let again = first.record(
        requests,
        &[("route", "/".into()), ("status", 200.into())],
        1,
    );
    assert_eq!(again, Err(Refusal::Budget));
    let batch = readers[0].collect(requests, 20)?;
    assert!(
        batch.ends_with(
            "point {\"route\"=\"/cart\",\"status\"=404,\"cached\"=true} start=0 time=20 value=15\n"
        ),
        "{batch}"
    );
    assert_eq!(readers[0].text()?, batch);
    requests.close()?;
    assert_eq!(requests.close(), Err(Refusal::Closed));
    let closed = recorders[1].record(
        requests,
        &[("route", "/".into()), ("status", 200.into())],
        1,
    );
    assert_eq!(closed, Err(Refusal::Closed));
    let totals = metrics.settle(&mut recorders)?;
    assert_eq!(
        totals,
        [Total { count: 5, sum: 15 }, Total { count: 0, sum: 0 }]
    );
    Ok(())
}

#[test]
fn prepared_recordings_go_one_by_one_and_in_lists() -> Result<(), Box<dyn std::error::Error>> {
    let Opened {
        metrics,
        mut recorders,
        ..
    } = opened();
    let requests = metrics.instrument("requests")?;
    let balance = metrics.instrument("balance")?;
    let second = &mut recorders[1];
    let front = second.prepare(requests, &[("route", "/".into()), ("status", 200.into())])?;
    let cart = second.prepare(
        requests,
        &[("route", "/cart".into()), ("status", 200.into())],
    )?;
    let bare = second.prepare(balance, &[])?;
    second.record_prepared(&front, 7)?;
    second.record_list(&[(&front, 1), (&cart, 2), (&front, 3)])?;
    second.record_list(&[])?;
    let stopped = second.record_list(&[(&front, 1), (&cart, 101), (&front, 3)]);
    assert_eq!(
        stopped,
        Err(ListRefusal {
            made: 1,
            refusal: Refusal::ValueRange(About::default())
        })
    );
    let stopped = second.record_list(&[(&front, 1), (&bare, 1), (&front, 3)]);
    assert_eq!(
        stopped,
        Err(ListRefusal {
            made: 1,
            refusal: Refusal::UnknownInstrument
        })
    );
    second.record_list(&[(&bare, -50), (&bare, -50), (&bare, 20)])?;
    let totals = metrics.settle(&mut recorders)?;
    assert_eq!(
        totals,
        [Total { count: 6, sum: 15 }, Total { count: 3, sum: -80 }]
    );
    Ok(())
}

#[test]
fn set_keys_that_a_host_writes_are_those_of_attributes() -> Result<(), Box<dyn std::error::Error>> {
    let Opened {
        metrics,
        mut recorders,
        ..
    } = opened();
    let requests = metrics.instrument("requests")?;
    let second = &mut recorders[1];
    let set = |keys: [u16; 4]| [keys[0], keys[1], keys[2], keys[3], 0, 0, 0, 0];
    second.record_set(requests, set([2, 1, 0, 0]), 7)?;
    second.record_set(requests, set([2, 1, 2, 0]), 1)?;
    let unknown = Err(Refusal::UnknownValue(About::default()));
    for wrong in [[0, 1, 0, 0], [3, 1, 0, 0], [2, 1, 3, 0], [2, 1, 0, 1]] {
        assert_eq!(
            second.record_set(requests, set(wrong), 1),
            unknown,
            "{wrong:?}"
        );
    }
    let attributes = [("route", "/cart".into()), ("status", 200.into())];
    second.record(requests, &attributes, 2)?;
    let totals = metrics.settle(&mut recorders)?;
    assert_eq!(totals[0], Total { count: 3, sum: 10 });
    Ok(())
}

#[test]
fn seats_of_other_runs_are_strangers() -> Result<(), Box<dyn std::error::Error>> {
    let mut one = opened();
    let mut other = opened();
    let requests = one.metrics.instrument("requests")?;
    let given = [("route", "/".into()), ("status", 200.into())];
    assert_eq!(
        other.recorders[0].record(requests, &given, 1),
        Err(Refusal::Stranger)
    );
    assert_eq!(
        other.readers[0].collect(requests, 1),
        Err(Refusal::Stranger)
    );
    assert!(matches!(
        other.recorders[0].prepare(requests, &given),
        Err(Refusal::Stranger)
    ));
    one.recorders[0].record(requests, &given, 1)?;
    assert_eq!(
        one.metrics.settle(&mut other.recorders),
        Err(SettleFault::Stranger)
    );
    assert_eq!(
        one.metrics.settle(&mut one.recorders[..1]),
        Err(SettleFault::RecorderMissing)
    );
    assert_eq!(
        one.metrics.settle(&mut one.recorders)?[0],
        Total { count: 1, sum: 1 }
    );
    Ok(())
}

#[test]
fn recorders_are_granted_what_is_spare() -> Result<(), Box<dyn std::error::Error>> {
    let catalogue = "format = 2
[[meter]]
name = 'shop'
instrument = [{ name = 'hits', kind = 'counter', range = [0, 100], spare = 2 }]
[[recorder]]
name = 'one'
budget = [{ instrument = 0, amount = 1 }]
";
    let mut opened = open(catalogue, CONFIG, 0)?;
    let hits = opened.metrics.instrument("hits")?;
    let one = &mut opened.recorders[0];
    one.record(hits, &[], 4)?;
    assert_eq!(one.record(hits, &[], 5), Err(Refusal::Budget));
    assert_eq!(hits.grant(1, 1), Err(Refusal::UnknownRecorder));
    assert_eq!(hits.grant(0, 3), Err(Refusal::NoSpare));
    hits.grant(0, 1)?;
    one.record(hits, &[], 5)?;
    assert_eq!(one.record(hits, &[], 6), Err(Refusal::Budget));
    hits.close()?;
    assert_eq!(hits.grant(0, 1), Err(Refusal::Closed));
    let totals = opened.metrics.settle(&mut opened.recorders)?;
    assert_eq!(totals, [Total { count: 2, sum: 9 }]);
    Ok(())
}

#[test]
fn threads_lose_nothing() -> Result<(), Box<dyn std::error::Error>> {
    let Opened {
        metrics,
        mut recorders,
        ..
    } = opened();
    let requests = metrics.instrument("requests")?;
    thread::scope(|scope| {
        for own in &mut recorders {
            scope.spawn(move || {
                let given = [("route", "/".into()), ("status", 200.into())];
                (0..3000)
                    .filter(|_| own.record(requests, &given, 1).is_ok())
                    .count()
            });
        }
    });
    assert_eq!(
        metrics.settle(&mut recorders)?[0],
        Total {
            count: 2005,
            sum: 2005
        }
    );
    Ok(())
}

#[test]
fn views_that_do_not_fit_are_warned_of() {
    let catalogue = "format = 1
[[meter]]
name = 'house'
[[meter.instrument]]
name = 'heat'
kind = 'gauge'
range = [-50, 50]
[[recorder]]
name = 'sensor'
budget = [{ instrument = 0, amount = 5 }]
";
    let config = "format = 1
[[reader]]
name = 'console'
[[view]]
aggregation = 'sum'
";
    let opened = open(catalogue, config, 0).expect("the plan is certified");
    assert_eq!(opened.warnings, "warning Unfit view=0 instrument=0\n");
}

#[test]
fn a_certificate_is_checked_whoever_made_it() -> Result<(), Box<dyn std::error::Error>> {
    let catalogue = "format = 1
[[meter]]
name = 'shop'
instrument = [{ name = 'hits', kind = 'counter', range = [0, 100] }]
[[recorder]]
name = 'one'
budget = [{ instrument = 0, amount = 10 }]
";
    let certificate = "format = 1
reason = []
stream = [{ reader = 0, instrument = 0, by = 'product', sets = 1 }]
bound = [{ instrument = 0, total = '10', amount = '1000', low = '0', high = '1000' }]
order = [{ reader = 0, streams = [0] }]
";
    let fault = |certificate: &str| open_certified(catalogue, CONFIG, certificate, 0).err();
    let starts = |fault: Option<OpenFault>, front| matches!(fault, Some(OpenFault::Fault(text)) if text.starts_with(front));
    assert!(starts(
        fault("format = 2\n"),
        "certificate: the tables are not those of a certificate"
    ));
    assert!(starts(
        fault(&certificate.replace("sets = 1", "sets = 2")),
        "certificate: the certificate is of other files, or was altered: a stream may have another number of series"
    ));
    let mut opened = open_certified(catalogue, CONFIG, certificate, 0)?;
    let hits = opened.metrics.instrument("hits")?;
    opened.recorders[0].record(hits, &[], 100)?;
    let totals = opened.metrics.settle(&mut opened.recorders)?;
    assert_eq!(totals, [Total { count: 1, sum: 100 }]);
    Ok(())
}

#[test]
fn batches_are_walked_point_by_point() -> Result<(), Box<dyn std::error::Error>> {
    let catalogue = "format = 1
[[meter]]
name = 'shop'
version = '2'
[[meter.instrument]]
name = 'latency'
kind = 'histogram'
unit = 'ms'
range = [0, 100]
boundaries = [10, 50]
key = [{ name = 'route', values = ['/', '/cart'] }, { name = 'cached', values = [true, 7], optional = true }]
[[recorder]]
name = 'one'
budget = [{ instrument = 0, amount = 10 }]
";
    let mut opened = open(catalogue, CONFIG, 5)?;
    let latency = opened.metrics.instrument("latency")?;
    let (one, reader) = (&mut opened.recorders[0], &mut opened.readers[0]);
    assert_eq!(reader.batch()?, None);
    for value in [3, 20, 70] {
        one.record(
            latency,
            &[("route", "/cart".into()), ("cached", 7.into())],
            value,
        )?;
    }
    one.record(latency, &[("route", "/".into())], 10)?;
    reader.collect(latency, 9)?;
    let batch = reader.batch()?.expect("there is a batch");
    assert_eq!((batch.instrument, batch.start, batch.time), (0, 5, 9));
    let [stream] = &batch.streams[..] else {
        panic!("there is one stream");
    };
    assert_eq!(
        [&stream.name, &stream.unit, &stream.meter, &stream.version],
        ["latency", "ms", "shop", "2"]
    );
    assert_eq!((stream.kind, stream.is_delta), (Kind::Histogram, false));
    assert_eq!(stream.boundaries, [10, 50]);
    let text = |text: &str| OwnedValue::Text(text.to_owned());
    let points = [
        Point {
            attributes: vec![("route".to_owned(), text("/"))],
            is_overflow: false,
            value: PointValue::Buckets {
                count: 1,
                counts: vec![1, 0, 0],
                sum: Some(10),
                min: 10,
                max: 10,
            },
        },
        Point {
            attributes: vec![
                ("route".to_owned(), text("/cart")),
                ("cached".to_owned(), OwnedValue::Whole(7)),
            ],
            is_overflow: false,
            value: PointValue::Buckets {
                count: 3,
                counts: vec![1, 1, 1],
                sum: Some(93),
                min: 3,
                max: 70,
            },
        },
    ];
    assert_eq!(stream.points, points);
    Ok(())
}

#[test]
fn batches_leave_in_the_protocol_of_opentelemetry() -> Result<(), Box<dyn std::error::Error>> {
    let Opened {
        metrics,
        mut recorders,
        mut readers,
        ..
    } = opened();
    let shop = Resource::new(&[("service.name", "shop".into()), ("pod", 7.into())]);
    let console = &mut readers[0];
    assert_eq!(console.otlp(&shop)?, b"");
    assert_eq!(console.otlp_line(&shop)?, "");
    let balance = metrics.instrument("balance")?;
    recorders[0].record(balance, &[], -50)?;
    console.collect(balance, 2)?;
    let line = "{\"resourceMetrics\":[{\"resource\":{\"attributes\":[{\"key\":\"service.name\",\"value\":\
        {\"stringValue\":\"shop\"}},{\"key\":\"pod\",\"value\":{\"intValue\":\"7\"}}]},\"scopeMetrics\":\
        [{\"scope\":{\"name\":\"shop\"},\"metrics\":[{\"name\":\"balance\",\"sum\":{\"dataPoints\":\
        [{\"timeUnixNano\":\"2\",\"asInt\":\"-50\"}],\"aggregationTemporality\":2}}]}]}]}\n";
    assert_eq!(console.otlp_line(&shop)?, line);
    let request = console.otlp(&shop)?;
    // A field of a message with its length, and what is in it.
    assert_eq!((request[0], request[1] as usize), (10, request.len() - 2));
    assert!(request.ends_with(&[16, 2]), "{request:?}");
    assert_eq!(console.otlp(&shop)?, request);
    metrics.collect_all(console, 3)?;
    let whole = console.otlp(&shop)?;
    assert_eq!((whole[0], console.otlp(&shop)?), (10, whole.clone()));
    assert_eq!(console.otlp_line(&shop)?.matches("\"resource\"").count(), 1);
    let many: Vec<String> = (0..65).map(|number| number.to_string()).collect();
    let many: Vec<_> = many.iter().map(|key| (key.as_str(), true.into())).collect();
    let faults: [(&[(&str, Value<'_>)], ResourceFault); 3] = [
        (&many, ResourceFault::TooMany),
        (&[("", 1.into())], ResourceFault::EmptyKey),
        (
            &[("a", 1.into()), ("a", 2.into())],
            ResourceFault::RepeatedKey,
        ),
    ];
    for (attributes, fault) in faults {
        let resource = Resource::new(attributes);
        assert_eq!(console.otlp(&resource), Err(fault));
        assert_eq!(console.otlp_line(&resource), Err(fault));
    }
    assert_eq!(console.otlp(&Resource::new(&many[..64]))?[0], 10);
    Ok(())
}
