"""The files of cases in tests/, as tools/cases reads them.

A file tests/SUBJECT/NAME.txt says first what its cases share, then one case after the other. A line says one thing; its
text stands behind it or in the next lines, which begin with four spaces. Nothing is escaped; a blank line is text if
more text comes after it, and a line that begins with # is a remark.

    case NAME                 what follows is of this case, up to the next
    $ COMMAND LINE            it may end with < FILE for standard input, where metric_kit otherwise reads the parts that
                              catalogue.toml, config.toml, certificate.toml and script.txt are
    stdout, stderr, status N  what it has to write, nothing where it is not said, and its status, otherwise 0
    only EXPRESSION           of what it writes to standard output, what the expression finds in each line
    memory N                  how many MiB it has at most
    file NAME, append NAME    a file of the case, and what comes behind it
    replace OLD, with NEW     a piece that stands once in all files of the case, and what takes its place
    OLD = NEW                 the same of a word in capitals; what a case says of it takes the place of what is shared
    then TEXT                 what comes behind the text before, in its last line

A text behind `with`, `=` and `then` may begin with `N times`. A line that ends with `escaped` says that \\r, \\t, \\\\
and \\xHH are single bytes in it and in its text, and that a backslash joins a line with the next. What a case says
takes the place of what is shared, and its changes of files come after the shared ones. A case may have several command
lines, each with what is said of it below.
"""

import codecs
import re

# Words that name something, words whose text is lines, and words whose text is a piece of a line.
NAMED = ["case", "$", "only", "memory", "status", "file", "append"]
LINES, PIECES = ["stdout", "stderr"], ["replace", "with", "then"]


class Case:
    """Files, changes of them, and runs: command lines with what each has to write."""

    def __init__(self, name, shared=None):
        self.name, self.runs = name, [dict(shared.runs[0], own=False) if shared else {}]
        self.files, self.changes = (dict(shared.files), list(shared.changes)) if shared else ({}, [])

    def say(self, word, name, text):
        """Takes one thing that the file says."""
        if word == "file":
            self.files[name] = text
        elif word in ("append", "replace"):
            self.changes.append([name, text])
        elif word == "with":
            change = [*self.changes.pop(), text]
            self.changes = [one for one in self.changes if one[:2] != change[:2]] + [change]
        else:
            self.runs += [{}] if word == "$" and self.runs[-1].get("own") else []
            value = text if word in LINES else int(name) if word in ("status", "memory") else name
            self.runs[-1] |= {word: value, "own": True}

    def written(self):
        """The files as the changes leave them."""
        files = dict(self.files)
        for name, old, *new in self.changes:
            if name:
                files[name] = files.get(name, b"") + old
                continue
            places = [place for place, text in files.items() for _ in range(text.count(old))]
            if len(places) != 1 or len(new) != 1:
                raise ValueError(f"case {self.name}: {old.decode()!r} stands {len(places)} times in its files")
            files[places[0]] = files[places[0]].replace(old, *new)
        return files


def lines_of(path):
    """The lines of a file that say something, each with its number and the lines of text below it."""
    said = []
    for number, line in enumerate(path.read_text(encoding="utf-8").split("\n"), 1):
        if said and (line.startswith("    ") or not line):
            said[-1][2].append(line[4:])
        elif line and not line.startswith("#"):
            said.append((number, line, []))
    for _, _, text in said:
        while text and not text[-1]:
            text.pop()
    return said


def text_of(word, rest, text):
    """What a line names, and the bytes of its text."""
    is_escaped = rest.split(" ")[-1] == "escaped"
    rest = rest.removesuffix("escaped").rstrip() if is_escaped else rest
    times, piece = re.fullmatch(r"(?:(\d+) times ?)?(.*)", rest).groups() if word in PIECES else ("", rest)
    lines = text or [piece] * (piece != "" and word not in NAMED)
    whole = "\n".join(lines) if word in PIECES else "".join(f"{line}\n" for line in lines)
    name, data = rest if word in NAMED else "", whole.encode()
    if is_escaped:
        name, data = codecs.escape_decode(name.encode())[0].decode(), codecs.escape_decode(data)[0]
    return name, data * int(times or 1)


def things_of(path):
    """What a file says, one thing after the other: a word, what it names, and its text."""
    things = []
    for number, line, text in lines_of(path):
        word, _, rest = line.partition(" ")
        if word.isupper() and rest[:1] == "=":
            things.append(("replace", "", word.encode()))
            word, rest = "with", rest[1:].strip()
        if word not in NAMED + LINES + PIECES or (word in NAMED and not rest) or (word == "then" and not things):
            raise ValueError(f"line {number}: {line}")
        name, data = text_of(word, rest, text)
        if word == "then":
            word, name, before = things.pop()
            data = before.removesuffix(b"\n") + data + b"\n" * before.endswith(b"\n")
        things.append((word, name, data))
    return things


def cases_of(path):
    """The cases of a file."""
    shared, cases = Case("what is shared"), {}
    for word, name, text in things_of(path):
        if word != "case":
            [shared, *cases.values()][-1].say(word, name, text)
        elif name not in cases:
            cases[name] = Case(name, shared)
        else:
            raise ValueError(f"two cases {name}")
    for case in cases.values():
        case.written()
        if any("$" not in run for run in case.runs):
            raise ValueError(f"case {case.name}: no command line")
    return list(cases.values())
