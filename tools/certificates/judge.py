"""A plain test of certificates, written from docs/FORMATS.md alone: the first fault that a check has to tell, or None."""

from certificates.declarations import KINDS

U16, U32, U64 = 2**16, 2**32, 2**64
LEAST, GREATEST = -(2**63), 2**63 - 1
TYPES = {"view": U32, "instrument": U32, "reader": U32, "sets": U32}
CRITERIA = ["instrument_type", "instrument_unit", "meter_name", "meter_version", "meter_schema_url"]


class Fault(Exception):
    """The name of the first fault."""


def need(holds, fault):
    if not holds:
        raise Fault(fault)


# ---- the table is that of a certificate


def is_number(value, below):
    return isinstance(value, int) and not isinstance(value, bool) and 0 <= value < below


def is_list(value, holds):
    return isinstance(value, list) and all(holds(one) for one in value)


def has_fields(table, needed, also=()):
    return isinstance(table, dict) and set(needed) <= set(table) <= set(needed) | set(also)


def is_reason(table):
    if not has_fields(table, ["view", "instrument"], ["takes", "rows", "miss"]) or len(table) != 3:
        return False
    if not (is_number(table["view"], U32) and is_number(table["instrument"], U32)):
        return False
    if "takes" in table:
        return is_list(table["takes"], lambda one: is_number(one, U16))
    if "rows" in table:
        return is_list(table["rows"], lambda row: is_list(row, lambda one: is_number(one, U16)))
    return table["miss"] in CRITERIA


def is_set_key(row):
    return is_list(row, lambda one: is_number(one, U16)) and len(row) == 8


def is_stream(table, version):
    if not has_fields(table, ["reader", "instrument", "by", "sets"], ["view", "list"]):
        return False
    if not all(is_number(table[name], U32) for name in ("reader", "instrument", "view", "sets") if name in table):
        return False
    if table["by"] == "list":
        return version == 2 and "list" in table and is_list(table["list"], is_set_key)
    return table["by"] in ("product", "budget") and "list" not in table


def decimal(text, least, most):
    """The number that a decimal text spells within these bounds, or None."""
    if not isinstance(text, str) or not text.removeprefix("-").isascii() or not text.removeprefix("-").isdigit():
        return None
    return int(text) if str(int(text)) == text and least <= int(text) <= most else None


def is_bound(table):
    if not has_fields(table, ["instrument", "total", "amount", "low", "high"]) or not is_number(table["instrument"], U32):
        return False
    unsigned = all(decimal(table[name], 0, U64 - 1) is not None for name in ("total", "amount"))
    return unsigned and all(decimal(table[name], -(2**127), 2**127 - 1) is not None for name in ("low", "high"))


def is_order(table):
    return has_fields(table, ["reader", "streams"]) and is_number(table["reader"], U32) and is_list(table["streams"], lambda one: is_number(one, U32))


def is_certificate(table):
    if not has_fields(table, ["format", "reason", "stream", "bound", "order"]) or table["format"] not in (1, 2) or table["format"] is True:
        return False
    lists = {"reason": is_reason, "stream": lambda one: is_stream(one, table["format"]), "bound": is_bound, "order": is_order}
    return all(is_list(table[name], holds) for name, holds in lists.items())


# ---- which streams there are to be


def is_same(a, b):
    return a.lower() == b.lower()


def spells(pattern, name, takes):
    """Whether the pieces of these lengths spell the name."""
    takes, at = list(takes), 0
    for letter in pattern:
        if letter == "*":
            if not takes:
                return False
            at += takes.pop(0)
            if at > len(name):
                return False
        else:
            if at >= len(name) or not (letter == "?" or is_same(letter, name[at])):
                return False
            at += 1
    return not takes and at == len(name)


def matches(pattern, name):
    if not pattern:
        return not name
    if pattern[0] == "*":
        return any(matches(pattern[1:], name[taken:]) for taken in range(len(name) + 1))
    return bool(name) and (pattern[0] == "?" or is_same(pattern[0], name[0])) and matches(pattern[1:], name[1:])


def is_closed(pattern, name, rows, at, place):
    """Whether each step from a place of the row at this letter leads to a place that is there."""
    if place >= len(pattern):
        return True
    letter = pattern[place]
    if letter == "*":
        here = place + 1 in rows[at]
        return here and (at == len(name) or place in rows[at + 1])
    if at < len(name) and (letter == "?" or is_same(letter, name[at])):
        return place + 1 in rows[at + 1]
    return True


def rules_out(pattern, name, rows):
    """Whether the rows show that the pattern does not match."""
    if len(rows) != len(name) + 1 or any(sorted(set(row)) != row for row in rows) or 0 not in rows[0]:
        return False
    closed = all(is_closed(pattern, name, rows, at, place) for at, row in enumerate(rows) for place in row)
    return closed and len(pattern) not in rows[len(name)]


def other_criteria(view, catalogue, instrument):
    """Of each criterion beside the name that the view gives, whether it holds."""
    name, version, url = catalogue.meters[instrument.meter]
    found = [instrument.kind, instrument.unit, name, version, url]
    return {one: view.criteria[one] == value for one, value in zip(CRITERIA, found) if one in view.criteria}


def selects(view, catalogue, instrument):
    return all(other_criteria(view, catalogue, instrument).values()) and matches(view.criteria.get("instrument_name", "*"), instrument.name)


def aggregation_of(reader, view, kind):
    named = (view.settings.get("aggregation") if view else None) or reader.aggregation.get(kind, "default")
    plain = {"counter": "sum", "up_down_counter": "sum", "histogram": "explicit_bucket_histogram", "gauge": "last_value"}
    return plain[kind] if named == "default" else named


def streams_due(catalogue, config):
    """The streams as (reader, instrument, view or -1), in order."""
    due = []
    for r, reader in enumerate(config.readers):
        for i, instrument in enumerate(catalogue.instruments):
            found = []
            for v, view in enumerate(config.views):
                fits = (aggregation_of(reader, view, instrument.kind), instrument.kind) != ("sum", "gauge")
                if selects(view, catalogue, instrument) and fits:
                    found.append(v)
            for v in found or [-1]:
                view = config.views[v] if v >= 0 else None
                if aggregation_of(reader, view, instrument.kind) != "drop":
                    due.append((r, i, v))
    return due


def view_of(config, stream):
    return config.views[stream[2]] if stream[2] >= 0 else None


def settings_of(config, stream):
    view = view_of(config, stream)
    return view.settings if view else {}


def identity(catalogue, config, stream):
    instrument = catalogue.instruments[stream[1]]
    name = settings_of(config, stream).get("stream_name", instrument.name)
    return tuple(part.encode() for part in (*catalogue.meters[instrument.meter], name.lower()))


def keeps_sum(catalogue, config, stream):
    kind = catalogue.instruments[stream[1]].kind
    aggregation = aggregation_of(config.readers[stream[0]], view_of(config, stream), kind)
    return aggregation == "sum" or (aggregation == "explicit_bucket_histogram" and kind in KINDS[0:3:2])


def kept_keys(catalogue, config, stream):
    settings = settings_of(config, stream)
    names = [f"k{number}" for number in range(len(catalogue.instruments[stream[1]].keys))]
    return [name in settings.get("keep", names) and name not in settings.get("exclude", []) for name in names]


def limit_of(catalogue, config, stream):
    kind = catalogue.instruments[stream[1]].kind
    return settings_of(config, stream).get("limit", config.readers[stream[0]].limit.get(kind, 2000))


# ---- the steps of a check


def check_reason(config, catalogue, reason, v, i):
    need(reason and (reason["view"], reason["instrument"]) == (v, i), "PairMissing")
    view, instrument = config.views[v], catalogue.instruments[i]
    pattern, others = view.criteria.get("instrument_name", "*"), other_criteria(view, catalogue, instrument)
    if "takes" in reason:
        need(spells(pattern, instrument.name, reason["takes"]), "BadTakes")
        need(all(others.values()), "BadMiss")
    elif "rows" in reason:
        need(rules_out(pattern, instrument.name, reason["rows"]), "BadRows")
    else:
        need(others.get(reason["miss"]) is False, "BadMiss")


def check_reasons(config, catalogue, reasons):
    left = list(reasons)
    for v in range(len(config.views)):
        for i in range(len(catalogue.instruments)):
            check_reason(config, catalogue, left.pop(0) if left else None, v, i)
    need(not left, "PairMissing")


def check_streams(due, streams):
    stated = [(one["reader"], one["instrument"], one.get("view", -1)) for one in streams]
    for place, one in enumerate(stated):
        need(place < len(due) and one >= due[place], "StreamStrange")
        need(one == due[place], "StreamMissing")
    need(len(stated) == len(due), "StreamMissing")


def check_orders(catalogue, config, due, orders):
    need([order["reader"] for order in orders] == list(range(len(config.readers))), "BadOrder")
    for r, order in enumerate(orders):
        own = [number for number, stream in enumerate(due) if stream[0] == r]
        need(sorted(order["streams"]) == own, "BadOrder")
        names = [identity(catalogue, config, due[number]) for number in order["streams"]]
        need(all(a < b for a, b in zip(names, names[1:])), "BadOrder")


def total_of(catalogue, i):
    return sum(amounts[i] or 0 for amounts in catalogue.budgets) + catalogue.instruments[i].spare


def check_bounds(catalogue, config, due, bounds):
    for i, instrument in enumerate(catalogue.instruments):
        need(i < len(bounds) and bounds[i]["instrument"] == i, "CountRange")
        stated = {name: int(bounds[i][name]) for name in ("total", "amount", "low", "high")}
        total, (low, high) = total_of(catalogue, i), instrument.range
        summed = any(stream[1] == i and keeps_sum(catalogue, config, stream) for stream in due)
        need(stated["total"] == total < U64, "CountRange")
        need(stated["amount"] == total * (high - low) < U64, "AmountRange")
        for name, number, fault in (("low", min(low, 0), "SumLow"), ("high", max(high, 0), "SumHigh")):
            need(stated[name] == total * number, fault)
            need(not summed or LEAST <= total * number <= GREATEST, fault)
    need(len(bounds) == len(catalogue.instruments), "CountRange")


def listed(instrument, kept):
    """The distinct combinations of the kept keys, rising; None where none are listed."""
    if instrument.allowed is None:
        return None
    rows = {tuple(entry if keep else 0 for entry, keep in zip(row, kept)) for row in instrument.allowed}
    return [list(row) + [0] * (8 - len(row)) for row in sorted(rows)]


def sets_of(catalogue, config, stream, entry):
    """What `by` names, or None where it names nothing."""
    instrument, kept = catalogue.instruments[stream[1]], kept_keys(catalogue, config, stream)
    if entry["by"] == "budget":
        return total_of(catalogue, stream[1])
    if entry["by"] == "list":
        return len(entry["list"]) if entry["list"] == listed(instrument, kept) else None
    product = 1
    for key, keep in zip(instrument.keys, kept):
        product *= key.values + key.optional if keep else 1
    return product


def check_sets(catalogue, config, due, streams):
    for stream, entry in zip(due, streams):
        need(entry["sets"] == sets_of(catalogue, config, stream, entry), "BadSets")
        need(entry["sets"] <= limit_of(catalogue, config, stream), "LimitExceeded")


def first_fault(catalogue, config, certificate):
    """The first fault of a certificate, or None where it is valid."""
    if not is_certificate(certificate):
        return "Shape"
    due = streams_due(catalogue, config)
    try:
        check_reasons(config, catalogue, certificate["reason"])
        check_streams(due, certificate["stream"])
        check_orders(catalogue, config, due, certificate["order"])
        check_bounds(catalogue, config, due, certificate["bound"])
        check_sets(catalogue, config, due, certificate["stream"])
    except Fault as fault:
        return str(fault)
    return None
