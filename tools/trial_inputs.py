"""Inputs for `metric_trials`: catalogues and configs of a size, with a script."""

# The highest limit of series, for each kind.
LIMIT = "limit = { counter = 1000000, up_down_counter = 1000000, gauge = 1000000, histogram = 1000000 }\n"

# The kinds of instruments.
BOUNDARIES = f"boundaries = {[78 * i for i in range(128)]}\n"
KINDS = {
    "sum": "kind = 'counter'\nrange = [0, 9999]\n",
    "up-down sum": "kind = 'up_down_counter'\nrange = [-9999, 9999]\n",
    "last value": "kind = 'gauge'\nrange = [0, 9999]\n",
    "histogram of 15": "kind = 'histogram'\nrange = [0, 9999]\n",
    "histogram of 128": "kind = 'histogram'\nrange = [0, 9999]\n" + BOUNDARIES,
}

# How many keys have more than one value, how many one has at most, and with how many there can be more series than the limit.
WIDE_KEYS, MANY_VALUES, MORE_VALUES = 3, 64, 101

# What a recorder may record that records as often as it likes, and one whose series are found by hash.
MUCH, LITTLE = 1_000_000_000_000, 1_000_000


def values_for(series):
    """With how many values of each of three keys so many series are told apart."""
    return next((values for values in range(1, MANY_VALUES) if values**3 >= series), MANY_VALUES)


def catalogue(instruments=1, kind="sum", keys=WIDE_KEYS, values=MANY_VALUES, recorders=1, budget=MUCH, more="", form=1):
    """A catalogue in which each recorder has a budget for each instrument."""
    text = f"format = {form}\n[[meter]]\nname = 'm'\n"
    for number in range(instruments):
        text += f"[[meter.instrument]]\nname = 'hits.{number}'\n{KINDS[kind]}{more}"
        for key in range(keys):
            named = ", ".join(f"'value.{value}'" for value in range(values if key < WIDE_KEYS else 1))
            text += f"[[meter.instrument.key]]\nname = 'key.{key}'\nvalues = [{named}]\n"
    budgets = "".join(f"[[recorder.budget]]\ninstrument = {number}\namount = {budget}\n" for number in range(instruments))
    return text + "".join(f"[[recorder]]\nname = 'recorder.{number}'\n{budgets}" for number in range(recorders))


def one_of(kind, series, is_dense):
    """A catalogue of one instrument, whose series have places from the start, or are found by hash."""
    values, budget = (values_for(series), MUCH) if is_dense else (MORE_VALUES, LITTLE)
    return catalogue(kind=kind, values=values, budget=budget)


def config(readers=1, views=0):
    """A config of so many readers, and of so many views, each of which selects one instrument by its name."""
    text = "format = 1\n" + "".join(f"[[reader]]\nname = 'reader.{number}'\n{LIMIT}" for number in range(readers))
    return text + "".join(f"[[view]]\ninstrument_name = 'hits.{number}'\nkeep = ['key.0']\n" for number in range(views))


def parts(catalogue, config, script=""):
    """The input that a file has."""
    return f"%% catalogue\n{catalogue}%% config\n{config}%% script\nstart 0\n{script}"
