//! Whether instruments mean what a program was made for.
use wormweekly::{About, ExpectedKey, Kind, MeaningFault, Opened, Refusal, Total, Value, open};

// Only values of different places go together, so that no combination tells whether values were exchanged.
const CATALOGUE: &str = "format = 2
[[meter]]
name = 'shop'
[[meter.instrument]]
name = 'transfers'
kind = 'counter'
unit = 'EUR'
range = [1, 100]
key = [{ name = 'from', values = ['a', 'b'] }, { name = 'to', values = ['a', 'b'] }]
allowed = [[1, 2], [2, 1]]
[[meter.instrument]]
name = 'orders'
kind = 'histogram'
range = [0, 100]
boundaries = [10]
key = [{ name = 'country', values = ['de', 'fr'] }, { name = 'count', values = [1, true], optional = true }]
[[recorder]]
name = 'main'
budget = [{ instrument = 0, amount = 5 }, { instrument = 1, amount = 5 }]
";

const CONFIG: &str = "format = 1
[[reader]]
name = 'console'
";

const FROM: ExpectedKey<'static> = ExpectedKey {
    name: "from",
    optional: false,
    values: &[Value::Text("a"), Value::Text("b")],
};

const TO: ExpectedKey<'static> = ExpectedKey { name: "to", ..FROM };

fn key<'a>(name: &'a str, optional: bool, values: &'a [Value<'a>]) -> ExpectedKey<'a> {
    ExpectedKey {
        name,
        optional,
        values,
    }
}

fn opened(catalogue: &str) -> Opened {
    open(catalogue, CONFIG, 0).expect("the plan is certified")
}

fn transfers(catalogue: &str, unit: &str, keys: &[ExpectedKey<'_>]) -> Result<u32, MeaningFault> {
    let mut opened = opened(catalogue);
    let main = &mut opened.recorders[0];
    let found = opened
        .metrics
        .expect(main, "shop", "transfers", Kind::Counter, unit, keys);
    found.map(|instrument| instrument.number())
}

#[test]
fn what_it_was_made_for_is_found() {
    assert_eq!(transfers(CATALOGUE, "EUR", &[FROM, TO]), Ok(0));
    let coupon =
        "{ name = 'to', values = ['a', 'b'] }, { name = 'coupon', values = [1], optional = true }]";
    let later = [
        ("amount = 5", "amount = 6"),
        ("range = [1, 100]", "range = [2, 50]"),
        (
            "'from', values = ['a', 'b']",
            "'from', values = ['a', 'b', 'c']",
        ),
        (
            "{ name = 'to', values = ['a', 'b'] }]\nallowed = [[1, 2], [2, 1]]",
            coupon,
        ),
    ];
    for (from, to) in later {
        let catalogue = CATALOGUE.replacen(from, to, 1);
        assert_ne!(catalogue, CATALOGUE);
        assert_eq!(transfers(&catalogue, "EUR", &[FROM, TO]), Ok(0), "{to}");
    }
}

#[test]
fn what_means_something_else_is_told() {
    let cases = [
        (
            "'from', values = ['a', 'b']",
            "'from', values = ['b', 'a']",
            "key \"from\" has no value \"a\" at place 1",
        ),
        (
            "'to', values = ['a', 'b']",
            "'to', values = ['a', 'bc']",
            "key \"to\" has no value \"b\" at place 2",
        ),
        ("'EUR'", "'USD'", "its unit is \"USD\""),
        ("'counter'", "'up_down_counter'", "it is an up-down counter"),
        (
            "'from'",
            "'form'",
            "key \"form\" stands in place of \"from\"",
        ),
        (
            "['a', 'b'] }, { name = 'to'",
            "['a', 'b'], optional = true }, { name = 'to'",
            "key \"from\" may be left out",
        ),
    ];
    for (from, to, words) in cases {
        let catalogue = CATALOGUE.replacen(from, to, 1);
        assert_ne!(catalogue, CATALOGUE);
        let told = MeaningFault::Fault(format!("shop/transfers: {words}"));
        assert_eq!(transfers(&catalogue, "EUR", &[FROM, TO]), Err(told));
    }
    let fewer = transfers(CATALOGUE, "EUR", &[FROM]).unwrap_err();
    let words = "shop/transfers: key \"to\" is not asked for, and may not be left out";
    assert_eq!(fewer.to_string(), words);
}

#[test]
fn kinds_of_values_and_flags_are_compared() -> Result<(), MeaningFault> {
    let mut opened = opened(CATALOGUE);
    let (metrics, main) = (&opened.metrics, &mut opened.recorders[0]);
    let country = key("country", false, &[Value::Text("de")]);
    let count = key("count", true, &[Value::Whole(1), Value::Flag(true)]);
    let mut ask = |keys: &[ExpectedKey<'_>]| {
        metrics.expect(main, "shop", "orders", Kind::Histogram, "", keys)
    };
    assert_eq!(ask(&[country, count])?.number(), 1);
    assert_eq!(ask(&[country])?.number(), 1);
    let text = key("count", true, &[Value::Text("1")]);
    let fault = ask(&[country, text]).map(|_| ()).unwrap_err().to_string();
    assert_eq!(
        fault,
        "shop/orders: key \"count\" has no value \"1\" at place 1"
    );
    let bare = ask(&[country, key("count", true, &[])]).map(|_| ());
    assert!(matches!(bare, Err(MeaningFault::Fault(_))), "{bare:?}");
    Ok(())
}

#[test]
fn a_long_line_is_told_whole() {
    let long = "x".repeat(2000);
    let values = [Value::Text(long.as_str())];
    let from = ExpectedKey {
        values: &values,
        ..FROM
    };
    let told = format!("shop/transfers: key \"from\" has no value {long:?} at place 1");
    assert_eq!(
        transfers(CATALOGUE, "EUR", &[from]),
        Err(MeaningFault::Fault(told))
    );
}

#[test]
fn other_names_and_other_runs_are_refused() {
    let mut one = opened(CATALOGUE);
    let mut other = opened(CATALOGUE);
    let unknown = Err(MeaningFault::Unknown("shop/pages".to_owned()));
    let found = one.metrics.expect(
        &mut one.recorders[0],
        "shop",
        "pages",
        Kind::Counter,
        "EUR",
        &[],
    );
    assert_eq!(found.map(|_| ()), unknown);
    let found = one.metrics.expect(
        &mut other.recorders[0],
        "shop",
        "transfers",
        Kind::Counter,
        "EUR",
        &[FROM, TO],
    );
    assert_eq!(found.map(|_| ()), Err(MeaningFault::Stranger));
}

#[test]
fn set_keys_outside_what_is_allowed_are_refused() -> Result<(), Box<dyn std::error::Error>> {
    let mut opened = opened(CATALOGUE);
    let (metrics, main) = (&opened.metrics, &mut opened.recorders[0]);
    let transfers = metrics.expect(main, "shop", "transfers", Kind::Counter, "EUR", &[FROM, TO])?;
    main.record_set(transfers, [1, 2, 0, 0, 0, 0, 0, 0], 7)?;
    let combination = Err(Refusal::Combination(About::default()));
    let unknown = Err(Refusal::UnknownValue(About::default()));
    assert_eq!(
        main.record_set(transfers, [1, 1, 0, 0, 0, 0, 0, 0], 1),
        combination
    );
    assert_eq!(
        main.record_set(transfers, [1, 0, 0, 0, 0, 0, 0, 0], 1),
        unknown
    );
    let totals = metrics.settle(&mut opened.recorders)?;
    assert_eq!(totals[0], Total { count: 1, sum: 7 });
    Ok(())
}
