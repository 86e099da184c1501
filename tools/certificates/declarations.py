"""Catalogues and configs that a random source makes, small and of every shape, and their text."""

from dataclasses import dataclass, field

KINDS = ["counter", "up_down_counter", "histogram", "gauge"]
AGGREGATIONS = ["default", "drop", "sum", "last_value", "explicit_bucket_histogram"]
NAMES = ["a", "ab", "abc", "A.b", "b", "ba", "x", "aab", "abab"]
PATTERNS = ["*", "a*", "*b", "a?", "?", "ab", "AB", "*a*", "a*b", "**", "a*b*", "b", "?*c", "x*y"]
BIGGEST = 2**63 - 1


@dataclass
class Key:
    values: int
    optional: bool


@dataclass
class Instrument:
    meter: int
    name: str
    kind: str
    unit: str
    range: tuple
    keys: list
    allowed: list | None = None
    spare: int = 0


@dataclass
class Catalogue:
    format: int
    meters: list  # of (name, version, schema URL)
    instruments: list
    budgets: list  # of a recorder's amounts, by instrument


@dataclass
class Reader:
    aggregation: dict
    limit: dict


@dataclass
class View:
    criteria: dict
    settings: dict = field(default_factory=dict)


@dataclass
class Config:
    readers: list
    views: list


def quoted(text):
    return '"' + text.replace("\\", "\\\\").replace('"', '\\"') + '"'


def value_text(value):
    """A value as TOML has it in one line."""
    if isinstance(value, bool):
        return "true" if value else "false"
    if isinstance(value, int):
        return str(value)
    if isinstance(value, str):
        return quoted(value)
    if isinstance(value, dict):
        return "{" + ", ".join(f"{name} = {value_text(part)}" for name, part in value.items()) + "}"
    return "[" + ", ".join(value_text(part) for part in value) + "]"


def document(fields):
    """A TOML document of these fields."""
    return "".join(f"{name} = {value_text(value)}\n" for name, value in fields.items())


def instrument_table(instrument):
    keys = [
        {"name": f"k{number}", "values": [f"v{value}" for value in range(key.values)], "optional": key.optional}
        for number, key in enumerate(instrument.keys)
    ]
    table = {"name": instrument.name, "kind": instrument.kind, "unit": instrument.unit, "range": list(instrument.range), "key": keys}
    if instrument.allowed is not None:
        table["allowed"] = instrument.allowed
    if instrument.spare:
        table["spare"] = instrument.spare
    return table


def catalogue_text(catalogue):
    meters = []
    for number, (name, version, url) in enumerate(catalogue.meters):
        own = [instrument_table(instrument) for instrument in catalogue.instruments if instrument.meter == number]
        meters.append({"name": name, "version": version, "schema_url": url, "instrument": own})
    recorders = [
        {"name": f"r{number}", "budget": [{"instrument": i, "amount": amount} for i, amount in enumerate(amounts) if amount is not None]}
        for number, amounts in enumerate(catalogue.budgets)
    ]
    return document({"format": catalogue.format, "meter": meters, "recorder": recorders})


def config_text(config):
    readers = [{"name": f"q{number}", "aggregation": reader.aggregation, "limit": reader.limit} for number, reader in enumerate(config.readers)]
    views = [view.criteria | view.settings for view in config.views]
    return document({"format": 1, "reader": readers, "view": views})


def some_range(dice, kind):
    lows = [0, 0, 1] if kind in ("counter", "histogram") else [0, -2, -BIGGEST - 1]
    low = dice.choice(lows)
    return low, max(low, dice.choice([0, 1, 9, 100, 10**12, BIGGEST]))


def some_rows(dice, keys):
    """Some distinct combinations of the keys' values, in any order."""
    rows = {tuple(dice.randint(0 if key.optional else 1, key.values) for key in keys) for _ in range(dice.randint(0, 5))}
    rows = [list(row) for row in rows]
    dice.shuffle(rows)
    return rows


def some_instrument(dice, meter, name, version):
    kind = dice.choice(KINDS)
    keys = [Key(dice.randint(1, 4), dice.random() < 0.4) for _ in range(dice.choice([0, 0, 1, 1, 2, 3]))]
    instrument = Instrument(meter, name, kind, dice.choice(["", "1", "ms"]), some_range(dice, kind), keys)
    if version == 2:
        instrument.allowed = some_rows(dice, keys) if dice.random() < 0.4 else None
        instrument.spare = dice.choice([0, 0, 1, 3, 50])
    return instrument


def some_catalogue(dice):
    version = dice.choice([1, 2])
    meters = [("m", "", ""), ("m", "1", ""), ("n", "", "u")][: dice.randint(1, 3)]
    instruments = []
    for meter in range(len(meters)):
        names = {name.lower(): name for name in dice.sample(NAMES, dice.randint(0, 3))}.values()
        instruments += [some_instrument(dice, meter, name, version) for name in names]
    budgets = [[dice.choice([None, 0, 1, 2, 5, 20, 3000]) for _ in instruments] for _ in range(dice.randint(0, 3))]
    return Catalogue(version, meters, instruments, budgets)


def some_reader(dice):
    aggregation = {}
    for kind in KINDS:
        if dice.random() < 0.2:
            aggregation[kind] = dice.choice([one for one in AGGREGATIONS if (one, kind) != ("sum", "gauge")])
    limit = {kind: dice.choice([1, 2, 5, 100]) for kind in KINDS if dice.random() < 0.2}
    return Reader(aggregation, limit)


def some_view(dice):
    criteria = {}
    choices = {
        "instrument_name": PATTERNS,
        "instrument_type": KINDS,
        "instrument_unit": ["", "1", "s"],
        "meter_name": ["m", "n"],
        "meter_version": ["", "1"],
        "meter_schema_url": ["", "u"],
    }
    for name, values in choices.items():
        if dice.random() < (0.7 if name == "instrument_name" else 0.15):
            criteria[name] = dice.choice(values)
    settings = {}
    choices = {
        "stream_name": ["s", "S1", "ab"],
        "aggregation": AGGREGATIONS,
        "keep": [[], ["k0"], ["k1", "k2"]],
        "exclude": [["k0"], ["k7"]],
        "limit": [1, 2, 5, 100],
    }
    for name, values in choices.items():
        if dice.random() < 0.3:
            settings[name] = dice.choice(values)
    return View(criteria, settings)


def some_config(dice):
    readers = [some_reader(dice) for _ in range(dice.randint(0, 2))]
    return Config(readers, [some_view(dice) for _ in range(dice.randint(0, 3))])
