#!/usr/bin/env python3
"""Turns what `kts solve` or `kts run` prints into CSV, or into a picture of one schedule with a bar for each trip.

    ./kts solve SPEC DATA | python3 examples/read_schedules.py --csv
    ./kts solve SPEC DATA | python3 examples/read_schedules.py --svg --start leaves --length takes --row van --data DATA

The text comes from FILE, or from standard input. It has to be whole, to its last line. Lines `node` and `path` of a trace are
passed over, and so are manifests, which repeat what the choices say. `docs/output.md` tells of each line.

CSV has the columns schedule, choice, first, second and value: one line for each value, where `first` and `second` are the members
that the value is chosen for, as far as there are any.

A picture has a bar for each value of the choice START. Where it ends is said by END, a choice too, or by LENGTH. ROW says in which
row a bar stands; without it each bar has a row of its own. START and END name choices. LENGTH and ROW name a choice, or a given
of the data file whose values stand in the order of the bars, or one value for all; LENGTH may also be a number.
"""

import argparse
import csv
import json
import re
import sys
from xml.sax.saxutils import escape, quoteattr

REFUSALS = ("refused ", "fault read ", "no memory", "usage: ")
ENDING = re.compile(r"none|(end|first|budget) [0-9]+|trap [A-Za-z]+ at [0-9]+")
PATH = re.compile(r"path [0-9]+ bound [0-9]+")
CELL = re.compile(r"([A-Za-z0-9_.,-]*)=([A-Za-z0-9_.-]+)")
NUMBER = re.compile(r"0|-?[1-9][0-9]*")

FILLS = ("#9ecae1", "#fdd0a2", "#a1d99b", "#dadaeb", "#fcbba1", "#d9d9d9", "#c7e9b4", "#f7d7e8")
ROW_HEIGHT = 34
BAR_HEIGHT = 24
LETTER = 7
MARGIN = 12
WIDE = 720
WIDEST = 960


class Unreadable(Exception):
    """The text is no whole run, or the picture can't be drawn from it."""


class Schedule:
    """A schedule: for each choice its values, in the order of the text, under the members that they are chosen for."""

    def __init__(self, number):
        self.number = number
        self.choices = {}
        self.members = {}

    def read_choice(self, line):
        name, *cells = line.split(" ")
        values = {}
        for cell in cells:
            match = CELL.fullmatch(cell)
            if match is None:
                raise Unreadable("no line of a schedule: " + line)
            values[match[1]] = match[2]
        self.choices[name] = values

    def read_manifest(self, line):
        """Of a manifest only the order of the members is kept, since it names also those that no cell has as a value."""
        words = line.split(" ")
        if len(words) < 3:
            raise Unreadable("no line of a manifest: " + line)
        self.members.setdefault(words[1], []).append(words[2])


def read_run(text):
    """The schedules of a run, and its last line that tells how it ended."""
    schedules = []
    ending = None
    for line in text.split("\n")[:-1]:
        if line.startswith(REFUSALS) and "=" not in line:
            raise Unreadable("the run was refused: " + line)
        if ending is not None:
            if not PATH.fullmatch(line):
                raise Unreadable("a line behind the last: " + line)
        elif re.fullmatch(r"schedule [1-9][0-9]*", line):
            schedules.append(Schedule(int(line.split(" ")[1])))
        elif line.startswith("node ") and "(" in line or line == "node" and not schedules:
            continue
        elif line.startswith("manifest ") and schedules:
            schedules[-1].read_manifest(line)
        elif ENDING.fullmatch(line) and not (line == "none" and schedules):
            ending = line
        elif schedules:
            schedules[-1].read_choice(line)
        else:
            raise Unreadable("no line of a run: " + line)
    if ending is None or not text.endswith("\n"):
        raise Unreadable("the text is cut: it doesn't end with the last line of a run")
    return schedules, ending


def write_csv(schedules, out):
    rows = csv.writer(out, lineterminator="\n")
    rows.writerow(["schedule", "choice", "first", "second", "value"])
    for schedule in schedules:
        for name, values in schedule.choices.items():
            for key, value in values.items():
                first, _, second = key.partition(",")
                rows.writerow([schedule.number, name, first, second, value])


class Bar:
    """A trip in the picture: its row, its label, its members, and the times between which it lasts."""

    def __init__(self, row, label, key, begin, end):
        self.row = row
        self.label = label
        self.key = key
        self.begin = begin
        self.end = end
        self.lane = 0


def number(text, what):
    if not NUMBER.fullmatch(str(text)):
        raise Unreadable("%s is no whole number: %s" % (what, text))
    return int(text)


def choice(schedule, name):
    if name not in schedule.choices:
        raise Unreadable("no choice has the name %s; there are %s" % (name, ", ".join(schedule.choices)))
    return schedule.choices[name]


def start_of(schedule):
    """The first choice that has values and whose values are all numbers."""
    for name, values in schedule.choices.items():
        if values and all(NUMBER.fullmatch(value) for value in values.values()):
            return name
    raise Unreadable("no choice has numbers alone, so --start has to name one")


def value_for_each(keys, name, schedule, data):
    """For each of the keys its value by a choice, or by a given of the data file."""
    if name in schedule.choices:
        values = schedule.choices[name]
        if any(key not in values for key in keys):
            raise Unreadable("%s isn't chosen for the same members as the bars" % name)
        return [values[key] for key in keys]
    if name not in data:
        raise Unreadable("neither a choice nor a given of the data file has the name %s" % name)
    values = data[name]
    if not isinstance(values, list):
        values = [values] * len(keys)
    if values and isinstance(values[0], list):
        values = [value for row in values for value in row]
    if len(values) != len(keys):
        raise Unreadable("%s has %d values for %d bars" % (name, len(values), len(keys)))
    return values


def load_of(key, schedule):
    """What goes with a bar: the members whose choice is the bar's member."""
    return [cell for values in schedule.choices.values() for cell, value in values.items() if value == key]


def bars_of(schedule, words, data):
    begins = choice(schedule, words.start or start_of(schedule))
    keys = list(begins)
    begin = [number(value, "a start") for value in begins.values()]
    if words.end:
        end = [number(value, "an end") for value in value_for_each(keys, words.end, schedule, data)]
    elif NUMBER.fullmatch(words.length):
        end = [b + int(words.length) for b in begin]
    else:
        lengths = value_for_each(keys, words.length, schedule, data)
        end = [b + number(value, "a length") for b, value in zip(begin, lengths)]
    if words.row:
        rows = [str(value) for value in value_for_each(keys, words.row, schedule, data)]
        labels = keys
    else:
        rows = [key.partition(",")[0] for key in keys]
        labels = [key.partition(",")[2] or " ".join(load_of(key, schedule)) for key in keys]
    return [Bar(*parts) for parts in zip(rows, labels, keys, begin, end)]


def lanes(bars):
    """Puts each bar of a row into the first lane that is free when it begins, and tells how many lanes there are."""
    free = []
    for bar in sorted(bars, key=lambda bar: (bar.begin, bar.end)):
        bar.lane = next((lane for lane, end in enumerate(free) if end <= bar.begin), len(free))
        free[bar.lane:bar.lane + 1] = [max(bar.end, bar.begin + 1)]
    return max(len(free), 1)


def rows_of(bars, schedule, name):
    """The rows of the picture, from above: those of a manifest in its order, and else each where its first bar is met."""
    return list(dict.fromkeys(schedule.members.get(name, []) + [bar.row for bar in bars]))


def unit_of(bars, span):
    """How wide a unit of time is: enough for the labels, where the picture doesn't grow too wide by that."""
    wanted = max(-(-(LETTER * len(bar.label) + 10) // max(bar.end - bar.begin, 1)) for bar in bars)
    return max(min(wanted, WIDEST // span), WIDE // span, 1)


def text(x, y, words, anchor="start"):
    return '<text x="%d" y="%d" text-anchor="%s">%s</text>' % (x, y, anchor, escape(words))


def draw_bar(bar, fill, x, y, width):
    room = (width - 8) // LETTER
    label = bar.label if len(bar.label) <= room else bar.label[:max(room - 1, 0)] + "…" if room > 1 else ""
    hint = "%s: %d to %d" % (bar.key or bar.label, bar.begin, bar.end)
    return ("<g><title>%s</title>" % escape(hint)
            + '<rect x="%d" y="%d" width="%d" height="%d" rx="3" fill=%s stroke="#555555"/>'
            % (x, y, width, BAR_HEIGHT, quoteattr(fill))
            + text(x + width // 2, y + 16, label, "middle") + "</g>")


def draw(bars, rows, title):
    """The picture as text of SVG."""
    low = min(bar.begin for bar in bars)
    high = max(max(bar.end for bar in bars), low + 1)
    unit = unit_of(bars, high - low)
    left = MARGIN + LETTER * max(len(row) for row in rows) + 12
    top = MARGIN + 24
    width = max(left + unit * (high - low), LETTER * len(title) + MARGIN) + 2 * MARGIN
    step = next(s * 10 ** p for p in range(9) for s in (1, 2, 5) if unit * s * 10 ** p >= 24)
    marks, body, y = [], [], top
    for place, row in enumerate(rows):
        inside = [bar for bar in bars if bar.row == row]
        height = ROW_HEIGHT * lanes(inside)
        body.append(text(left - 10, y + 21, row, "end"))
        for bar in inside:
            body.append(draw_bar(bar, FILLS[place % len(FILLS)], left + unit * (bar.begin - low),
                                 y + 5 + ROW_HEIGHT * bar.lane, max(unit * (bar.end - bar.begin), 2)))
        y += height
        marks.append('<path d="M%d %dH%d" stroke="#dddddd"/>' % (MARGIN, y, left + unit * (high - low)))
    for time in range(-(-low // step) * step, high + 1, step):
        x = left + unit * (time - low)
        marks.append('<path d="M%d %dV%d" stroke="#dddddd"/>' % (x, top, y))
        marks.append(text(x, y + 18, str(time), "middle"))
    head = ['<svg xmlns="http://www.w3.org/2000/svg" width="%d" height="%d" font-family="sans-serif" font-size="12">'
            % (width, y + 30),
            '<rect width="%d" height="%d" fill="#ffffff"/>' % (width, y + 30),
            text(MARGIN, MARGIN + 10, title)]
    return "\n".join(head + marks + body + ["</svg>"]) + "\n"


def draw_schedule(schedules, words):
    wanted = words.schedule or 1
    found = [schedule for schedule in schedules if schedule.number == wanted]
    if not found:
        raise Unreadable("the run has no schedule %d" % wanted)
    data = {}
    if words.data:
        with open(words.data, encoding="utf-8") as file:
            data = json.load(file)
    bars = bars_of(found[0], words, data)
    if not bars:
        raise Unreadable("there is nothing to draw")
    return draw(bars, rows_of(bars, found[0], words.row), words.title or "schedule %d" % wanted)


def read_words():
    words = argparse.ArgumentParser(description=__doc__, formatter_class=argparse.RawDescriptionHelpFormatter)
    words.add_argument("file", metavar="FILE", nargs="?", help="the text of a run; without it, standard input")
    kind = words.add_mutually_exclusive_group()
    kind.add_argument("--csv", action="store_true", help="write CSV; so it is without --svg")
    kind.add_argument("--svg", action="store_true", help="write a picture of one schedule")
    words.add_argument("--schedule", metavar="K", type=int, help="only schedule K; a picture is of the first one without it")
    words.add_argument("--start", metavar="START", help="when a bar begins; without it, the first choice of numbers")
    words.add_argument("--end", metavar="END", help="when a bar ends")
    words.add_argument("--length", metavar="LENGTH", default="1", help="how long a bar is; without it, 1")
    words.add_argument("--row", metavar="ROW", help="in which row a bar stands")
    words.add_argument("--data", metavar="DATA", help="the data file that has the givens")
    words.add_argument("--title", metavar="TITLE", help="what stands above the picture")
    return words.parse_args()


def main():
    words = read_words()
    try:
        if words.file:
            with open(words.file, encoding="utf-8", newline="") as file:
                source = file.read()
        else:
            source = sys.stdin.buffer.read().decode("utf-8")
        schedules, _ = read_run(source)
        if words.svg:
            result = draw_schedule(schedules, words).encode()
            sys.stdout.buffer.write(result)
        else:
            sys.stdout.reconfigure(newline="\n")
            write_csv([s for s in schedules if words.schedule in (None, s.number)], sys.stdout)
    except (Unreadable, OSError, ValueError) as fault:
        print("read_schedules.py: %s" % fault, file=sys.stderr)
        return 1
    return 0


if __name__ == "__main__":
    sys.exit(main())
