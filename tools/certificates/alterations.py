"""Alterations of a certificate, each chosen by a random source. Some leave it valid."""

import copy


def numbers_in(value, path=()):
    """The paths to all numbers in a value."""
    if isinstance(value, bool) or isinstance(value, str):
        return
    if isinstance(value, int):
        yield path
        return
    parts = value.items() if isinstance(value, dict) else enumerate(value)
    for name, part in parts:
        yield from numbers_in(part, (*path, name))


def lists_in(value, path=()):
    """The paths to all lists in a value that have some element."""
    if isinstance(value, list) and value:
        yield path
    if isinstance(value, (list, dict)):
        parts = value.items() if isinstance(value, dict) else enumerate(value)
        for name, part in parts:
            yield from lists_in(part, (*path, name))


def at(value, path):
    for name in path:
        value = value[name]
    return value


def some_path(dice, paths):
    paths = list(paths)
    return dice.choice(paths) if paths else None


def nothing(dice, certificate, other):
    pass


def a_number_is_another(dice, certificate, other):
    path = some_path(dice, numbers_in(certificate))
    at(certificate, path[:-1])[path[-1]] += dice.choice([1, 1, -1, -1, 2, 65_536])


def entries_are_swapped(dice, certificate, other):
    if path := some_path(dice, lists_in(certificate)):
        entries = at(certificate, path)
        a, b = dice.randrange(len(entries)), dice.randrange(len(entries))
        entries[a], entries[b] = entries[b], entries[a]


def an_entry_is_left_out(dice, certificate, other):
    if path := some_path(dice, lists_in(certificate)):
        entries = at(certificate, path)
        entries.pop(dice.randrange(len(entries)))


def an_entry_stands_twice(dice, certificate, other):
    if path := some_path(dice, lists_in(certificate)):
        entries = at(certificate, path)
        place = dice.randrange(len(entries))
        entries.insert(dice.choice([place, len(entries)]), copy.deepcopy(entries[place]))


def an_entry_is_another_certificate_s(dice, certificate, other):
    name = dice.choice(["reason", "stream", "bound", "order"])
    if other[name]:
        entry = copy.deepcopy(dice.choice(other[name]))
        place = dice.randint(0, len(certificate[name]))
        end = place + dice.choice([0, 1])
        certificate[name][place:end] = [entry]


def all_is_another_certificate_s(dice, certificate, other):
    name = dice.choice(["reason", "stream", "bound", "order"])
    certificate[name] = copy.deepcopy(other[name])


def a_text_is_another_number(dice, certificate, other):
    if certificate["bound"]:
        bound, name = dice.choice(certificate["bound"]), dice.choice(["total", "amount", "low", "high"])
        bound[name] = dice.choice([str(int(bound[name]) + dice.choice([1, -1])), bound[name] + "0", "0" + bound[name], "-0", "+1"])


def a_reason_is_another(dice, certificate, other):
    if certificate["reason"]:
        reason = dice.choice(certificate["reason"])
        for name in ("takes", "rows", "miss"):
            reason.pop(name, None)
        name, values = dice.choice(
            [
                ("takes", [[], [0], [1], [0, 1], [1, 0], [2, 0]]),
                ("rows", [[[0]], [[0], []], [[0], [1]], [[0, 1], [0, 1]], [[0], [], []], []]),
                ("miss", ["instrument_type", "instrument_unit", "meter_name", "meter_version", "meter_schema_url", "instrument_name"]),
            ]
        )
        reason[name] = dice.choice(values)


def a_stream_is_bounded_otherwise(dice, certificate, other):
    if certificate["stream"]:
        stream = dice.choice(certificate["stream"])
        stream["by"] = dice.choice(["product", "budget", "list", "sum"])
        if dice.random() < 0.7:
            totals = [int(bound["total"]) for bound in certificate["bound"] if bound["instrument"] == stream["instrument"]]
            stream["sets"] = dice.choice(totals[:1] + [stream["sets"], 1])
        if stream["by"] == "list" and dice.random() < 0.7:
            stream["list"] = dice.choice([[], [[1, 0, 0, 0, 0, 0, 0, 0]]])
        elif dice.random() < 0.8:
            stream.pop("list", None)


def the_format_is_another(dice, certificate, other):
    certificate["format"] = dice.choice([1, 2, 3])


def a_field_is_another(dice, certificate, other):
    tables = [certificate] + [entry for name in ("reason", "stream", "bound", "order") for entry in certificate[name]]
    table = dice.choice(tables)
    if dice.random() < 0.5:
        table.pop(dice.choice(list(table)))
    else:
        table[dice.choice(["other", "view", "list", "sets"])] = dice.choice([0, "0", []])


ALTERATIONS = [
    nothing,
    a_number_is_another,
    a_number_is_another,
    entries_are_swapped,
    an_entry_is_left_out,
    an_entry_stands_twice,
    an_entry_is_another_certificate_s,
    all_is_another_certificate_s,
    a_text_is_another_number,
    a_reason_is_another,
    a_reason_is_another,
    a_stream_is_bounded_otherwise,
    a_stream_is_bounded_otherwise,
    the_format_is_another,
    a_field_is_another,
]


def altered(dice, certificate, other):
    """A certificate after one alteration, or sometimes two."""
    found = copy.deepcopy(certificate)
    for _ in range(dice.choice([1, 1, 1, 2])):
        alteration = dice.choice(ALTERATIONS)
        try:
            alteration(dice, found, other)
        except (KeyError, TypeError, ValueError):
            pass  # what an earlier alteration took away
    return found
