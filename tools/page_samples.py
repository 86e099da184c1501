"""Samples: as they are due of points, and as a parser finds them in a page."""
from otlp_points import RESOURCE

try:
    from prometheus_client.openmetrics.parser import text_string_to_metric_families as families_of_openmetrics
    from prometheus_client.parser import text_string_to_metric_families as families_of_text
except ImportError:
    families_of_text = None

# The words by which a replay writes pages, and how these are announced to who scrapes them.
DIALECTS = {
    "prometheus": "text/plain; version=0.0.4; charset=utf-8",
    "openmetrics": "application/openmetrics-text; version=1.0.0; charset=utf-8",
    "openmetrics-created": "application/openmetrics-text; version=1.0.0; charset=utf-8",
}

# What the streams and keys of the files are called there.
FAMILIES = {
    "http.requests": "http_requests",
    "request.duration": "request_duration_milliseconds",
    "items.in_stock": "items_in_stock",
    "cpu.utilization": "cpu_utilization_ratio",
    "disk-io/rate": "disk_io_rate_bytes_per_second",
    "balance.spread": "balance_spread_EUR",
    "balance": "balance_EUR",
    "library.requests": "library_requests",
    "sizes": "sizes_bytes",
    "weights": "weights",
    "lowest": "lowest",
    "orders": "orders",
    "jobs.active": "jobs_active",
    "duration": "duration_milliseconds",
}
LABELS = {"1st": "key_1st"}


def label(key):
    return LABELS.get(key, key.replace(".", "_"))


def last_points(batches):
    """The points of each stream at its last collection."""
    return {(stream.meter, stream.name): stream for streams in batches for stream in streams}.values()


def page_due(batches, dialect):
    """The samples of a page: the value of each name and labels."""
    due = {key_of("target_info", {label(key): value for key, value in RESOURCE}): 1.0}
    for stream in last_points(batches):
        scope = {"otel_scope_name": stream.meter, "otel_scope_version": stream.version, "otel_scope_schema_url": stream.schema}
        for point in stream.points:
            labels = {label(key): value for key, value in point.attributes} | scope
            for name, more, value in page_samples(stream, point, dialect):
                due[key_of(name, labels | more)] = float(value)
    return due


def key_of(name, labels):
    """A name and its labels: as texts, none that is empty, and a boundary by its number."""
    shown = texts_of(list(labels.items()))
    if "le" in shown:
        shown["le"] = str(float(shown["le"]))
    return name, *sorted(shown.items())


def page_samples(stream, point, dialect):
    """The samples of a point in a dialect."""
    family = FAMILIES[stream.name]
    is_open = dialect != "prometheus"
    if stream.kind == "histogram":
        samples = histogram_samples(family, stream, point, is_open)
    elif stream.monotonic:
        samples = [(f"{family}_total", {}, point.value)]
    else:
        return [(family, {}, point.value)]
    created = [(f"{family}_created", {}, point.start / 10**9)] if dialect == "openmetrics-created" else []
    return samples + created


def histogram_samples(family, stream, point, is_open):
    bounds = [*map(str, stream.boundaries), "+Inf"]
    samples = [(f"{family}_bucket", {"le": le}, sum(point.buckets[: at + 1])) for at, le in enumerate(bounds)]
    # OpenMetrics has a sum and a count together or not at all, and none beside a negative boundary.
    has_sum = point.sum is not None and not (is_open and any(it < 0 for it in stream.boundaries))
    if has_sum:
        samples.append((f"{family}_sum", {}, point.sum))
    if has_sum or not is_open:
        samples.append((f"{family}_count", {}, point.count))
    return samples


def samples_parsed(page, dialect):
    """The samples that the Python client's parsers find in a page."""
    families = families_of_text(page) if dialect == "prometheus" else families_of_openmetrics(page)
    return {key_of(it.name, it.labels): float(it.value) for family in families for it in family.samples}


def texts_of(attributes):
    """Attributes as a server keeps them: as texts, and none that is empty."""
    shown = {key: str(value).lower() if isinstance(value, bool) else str(value) for key, value in attributes}
    return {key: text for key, text in shown.items() if text}


def samples_due(batches):
    """What VictoriaMetrics is to hold of the batches: the value of each name, labels and millisecond."""
    due = {}
    for stream in (stream for streams in batches for stream in streams):
        scope = [("scope.name", stream.meter), ("scope.version", stream.version or "unknown")]
        for point in stream.points:
            labels = texts_of(point.attributes + RESOURCE + scope)
            for name, more, value in samples_of(stream, point):
                due[name, *sorted({**labels, **more}.items()), point.time // 10**6] = float(value)
    return due


def samples_of(stream, point):
    """The samples of a point: the end of a name with its labels, and the value."""
    if stream.kind != "histogram":
        return [(stream.name, {}, point.value)]
    bounds = [*map(str, stream.boundaries), "+Inf"]
    buckets = [(f"{stream.name}_bucket", {"le": le}, sum(point.buckets[: at + 1])) for at, le in enumerate(bounds)]
    sums = [] if point.sum is None else [(f"{stream.name}_sum", {}, point.sum)]
    return [*buckets, *sums, (f"{stream.name}_count", {}, point.count)]


def handed_due(due):
    """What node_exporter is to hand on: no error, and the samples of the page. To a histogram without a sum it adds one of 0."""
    counts = [key for key in due if key[0].endswith("_count")]
    sums = {(key[0].removesuffix("_count") + "_sum", *key[1:]): 0.0 for key in counts}
    return {("node_textfile_scrape_error",): 0.0} | sums | due
