"""OTLP: the points as they are due, and as protobuf decodes them."""
import os
import re
import subprocess
from pathlib import Path

try:
    from google.protobuf import json_format
    from opentelemetry.proto.collector.metrics.v1.metrics_service_pb2 import ExportMetricsServiceRequest
except ImportError:
    ExportMetricsServiceRequest = None

DEFINITIONS = Path(os.environ.get("OTLP_DEFINITIONS", "/usr/include"))
SERVICE_PROTO = "opentelemetry/proto/collector/metrics/v1/metrics_service.proto"
REQUEST = "opentelemetry.proto.collector.metrics.v1.ExportMetricsServiceRequest"

# The attributes of the resource that replays are given.
RESOURCE = [("service.name", "shop"), ("service.instance.id", "till-7")]
TEMPORALITIES = {1: "delta", 2: "cumulative"}


def value_due(stream, point):
    if stream.kind != "histogram":
        return {"value": point.value}
    # A double is the nearest one to its number, of two as near the one whose last bit is 0, as Python's is.
    doubles = {name: None if getattr(point, name) is None else float(getattr(point, name)) for name in ("sum", "min", "max")}
    return {"count": point.count, "buckets": point.buckets, "bounds": [float(it) for it in stream.boundaries], **doubles}


def points_due(batches):
    """Each point of the batches with all that is said of it, in order."""
    due = []
    for stream in (stream for streams in batches for stream in streams):
        head = {
            "resource": [(key, "str", value) for key, value in RESOURCE],
            "scope": (stream.meter, stream.version, stream.schema),
            "metric": (stream.name, stream.description, stream.unit, stream.kind),
            "temporality": None if stream.kind == "last" else stream.temporality,
            "monotonic": stream.monotonic,
        }
        for point in stream.points:
            attributes = [(key, type(value).__name__, value) for key, value in point.attributes]
            due.append({**head, "attributes": attributes, "times": (point.start, point.time), **value_due(stream, point)})
    return due


def attributes_decoded(attributes):
    return [(it.key, *value_decoded(it.value)) for it in attributes]


def value_decoded(value):
    kind = value.WhichOneof("value")
    return {"string_value": "str", "int_value": "int", "bool_value": "bool"}.get(kind), getattr(value, kind)


def optional(message, name):
    return getattr(message, name) if message.HasField(name) else None


def point_value_decoded(kind, point):
    if kind != "histogram":
        return {"value": point.as_int if point.WhichOneof("value") == "as_int" else None}
    doubles = {name: optional(point, name) for name in ("sum", "min", "max")}
    lists = {"buckets": list(point.bucket_counts), "bounds": list(point.explicit_bounds)}
    return {"count": point.count, **lists, **doubles}


def metric_decoded(head, metric):
    kind = metric.WhichOneof("data")
    data = getattr(metric, kind)
    head = {
        **head,
        "metric": (metric.name, metric.description, metric.unit, "last" if kind == "gauge" else kind),
        "temporality": None if kind == "gauge" else TEMPORALITIES.get(data.aggregation_temporality),
        "monotonic": kind == "sum" and data.is_monotonic,
    }
    for point in data.data_points:
        times = (point.start_time_unix_nano, point.time_unix_nano)
        value = point_value_decoded(kind, point)
        yield {**head, "attributes": attributes_decoded(point.attributes), "times": times, **value}


def points_decoded(message):
    """Each point of a message, in the form of those that are due."""
    decoded = []
    for resource in message.resource_metrics:
        for scope in resource.scope_metrics:
            head = {
                "resource": attributes_decoded(resource.resource.attributes),
                "scope": (scope.scope.name, scope.scope.version, scope.schema_url),
            }
            for metric in scope.metrics:
                decoded += metric_decoded(head, metric)
    return decoded


def message_of_lines(lines):
    """The message of lines of JSON: each is one, and one after the other they are one."""
    whole = ExportMetricsServiceRequest()
    for line in lines.decode().splitlines():
        whole.MergeFrom(json_format.Parse(line, ExportMetricsServiceRequest()))
    return whole


def decoded(request):
    return points_decoded(ExportMetricsServiceRequest.FromString(request))


def written_again(request):
    return ExportMetricsServiceRequest.FromString(request).SerializeToString(deterministic=True)


def decoded_lines(lines):
    return points_decoded(message_of_lines(lines))


def protoc(word, given):
    command = ["protoc", f"-I{DEFINITIONS}", f"--{word}={REQUEST}", SERVICE_PROTO]
    return subprocess.run(command, input=given, capture_output=True, check=True).stdout


def unknown_fields(request):
    """The fields that the definitions lack: protoc tells these by their number alone."""
    return re.findall(rb"(?m)^\s*\d+[: ].*$", protoc("decode", request))


def written_by_protoc(request):
    return protoc("encode", protoc("decode", request))
