//! The formats of pages for Prometheus.

/// A format of pages.
#[derive(Clone, Copy, Debug, PartialEq, Eq)]
pub enum Dialect {
    /// The text format 0.0.4.
    Text,
    /// OpenMetrics 1.0.
    OpenMetrics,
    /// The same with a line `_created` for each counter and histogram, which tells when its points begin. A server that
    /// does not take it as that keeps it as a series more.
    OpenMetricsCreated,
}

impl Dialect {
    /// The format that a client asks for in its header `Accept`: OpenMetrics where it names that, with no less weight
    /// than plain text; else the text format.
    pub fn for_accept(accept: &str) -> Dialect {
        let (mut open_metrics, mut text) = (0.0_f64, 0.0_f64);
        for one in accept.to_ascii_lowercase().split(',') {
            let mut words = one.split(';').map(str::trim);
            match words.next() {
                Some("application/openmetrics-text") => {
                    open_metrics = open_metrics.max(weight_of(words));
                }
                Some("text/plain") => text = text.max(weight_of(words)),
                _ => {}
            }
        }
        match open_metrics > 0.0 && open_metrics >= text {
            true => Dialect::OpenMetrics,
            false => Dialect::Text,
        }
    }

    /// What a page says in its header `Content-Type`.
    pub fn content_type(self) -> &'static str {
        match self {
            Dialect::Text => "text/plain; version=0.0.4; charset=utf-8",
            _ => "application/openmetrics-text; version=1.0.0; charset=utf-8",
        }
    }

    pub(crate) fn number(self) -> u32 {
        match self {
            Dialect::Text => 0,
            Dialect::OpenMetrics => 1,
            Dialect::OpenMetricsCreated => 2,
        }
    }

    /// The last line of a page.
    pub(crate) fn end(self) -> &'static str {
        match self {
            Dialect::Text => "",
            _ => "# EOF\n",
        }
    }
}

// The weight that a part of a header `Accept` has; none, where it says what is no weight.
fn weight_of<'a>(mut parameters: impl Iterator<Item = &'a str>) -> f64 {
    let said = parameters.find_map(|one| one.strip_prefix("q="));
    let weight = said.unwrap_or("1").parse().unwrap_or(0.0);
    if (0.0..=1.0).contains(&weight) {
        weight
    } else {
        0.0
    }
}
