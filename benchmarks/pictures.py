#!/usr/bin/env python3
"""Draws the pictures of docs/pictures from the table "All that was measured" of benchmarks/README.md."""
import math
import os
import re
from xml.sax.saxutils import escape

HERE = os.path.dirname(os.path.abspath(__file__))
PICTURES = os.path.join(HERE, "../docs/pictures")
OTHER, OURS, COPY = "#8a8f98", "#1f6feb", "#c9ccd1"
NAMES = ["xdg-dbus-proxy", "zamtigarn", "copying proxy"]
COLOURS = [OTHER, OURS, COPY]

# The rows of the bars: the name of a work, its row in the table, and whether more is better.
BARS = [
    ("One call at a time", "round trip p50", False),
    ("256 calls in flight", "pipelined 256", True),
    ("Refused calls", "refused calls, 64 in flight", True),
    ("Shown signals, bursts of 1,000", "shown signals, bursts of 1,000", True),
    ("Hidden signals, processor time", "hidden signals, CPU", False),
    ("Bodies of 1 MB to the bus", "1 MB to the bus", True),
    ("Bodies of 1 MB to the client", "1 MB to the client", True),
    ("Bodies of 16 MB to the client", "16 MB to the client", True),
    ("Connect, authenticate, Hello", "connect+SASL+Hello p50", False),
    (".., 10,000 entries", "10000 entries: connect+SASL+Hello p50", False),
    ("Start to the first accept", "start to first accept", False),
    ("Memory after the start", "RSS after start", False),
    ("Memory of an idle session", "RSS per session of 1000", False),
]

# Growth: what a call or a connect costs as the policy, or the number of calls in flight, grows.
ENTRIES = [(1, "1 entries: "), (100, "100 entries: "), (10000, "10000 entries: ")]
FLIGHT = [(1, "round trip, CPU per 100,000 calls"), (16, "pipelined 16, CPU per 100,000 calls"), (256, "pipelined 256, CPU per 100,000 calls")]


def measured():
    """The medians of each row of the table: of xdg-dbus-proxy, of this program, and of the copying proxy."""
    with open(os.path.join(HERE, "README.md"), encoding="utf-8") as file:
        text = file.read().split("## All that was measured", 1)[1]
    rows = {}
    for line in text.splitlines():
        cells = [cell.strip() for cell in line.strip().strip("|").split("|")]
        if len(cells) != 6:
            continue
        values = [re.match(r"[\d,.]+", cell) for cell in cells[2:5]]
        if all(values):
            rows[cells[0]] = [float(value.group().replace(",", "")) for value in values]
    return rows


class Drawing:
    def __init__(self, width, height, title):
        self.head = (
            '<svg xmlns="http://www.w3.org/2000/svg" viewBox="0 0 %d %d" width="%d" height="%d" role="img" '
            'font-family="sans-serif" font-size="13">\n<title>%s</title>\n<rect width="100%%" height="100%%" fill="#ffffff"/>\n'
            % (width, height, width, height, escape(title))
        )
        self.parts = []

    def text(self, x, y, words, anchor="start", colour="#24292f", size=13, weight="normal"):
        self.parts.append('<text x="%.1f" y="%.1f" text-anchor="%s" fill="%s" font-size="%d" font-weight="%s">%s</text>' % (
            x, y, anchor, colour, size, weight, escape(words)))

    def bar(self, x, y, width, height, colour):
        self.parts.append('<rect x="%.1f" y="%.1f" width="%.1f" height="%.1f" rx="2" fill="%s"/>' % (x, y, max(width, 1), height, colour))

    def line(self, points, colour, width=2.0, dash=""):
        spelled = " ".join("%.1f,%.1f" % point for point in points)
        self.parts.append('<polyline points="%s" fill="none" stroke="%s" stroke-width="%.1f"%s/>' % (
            spelled, colour, width, ' stroke-dasharray="%s"' % dash if dash else ""))

    def dot(self, x, y, colour):
        self.parts.append('<circle cx="%.1f" cy="%.1f" r="3.5" fill="%s"/>' % (x, y, colour))

    def write(self, name):
        with open(os.path.join(PICTURES, name), "w", encoding="utf-8") as file:
            file.write(self.head + "\n".join(self.parts) + "\n</svg>\n")


def times(ratio):
    return "%.0f times" % ratio if ratio >= 10 else "%.1f times" % ratio


def draw_speed(rows):
    """Bars of how many times as good as xdg-dbus-proxy each proxy is, on a scale on which each step is ten times."""
    left, scale, row_height = 250, 150, 34
    drawing = Drawing(840, 84 + row_height * len(BARS), "How many times as good as xdg-dbus-proxy, by work")
    drawing.text(20, 28, "Times as good as xdg-dbus-proxy", size=16, weight="bold")
    for place, name in ((480, 1), (600, 2)):
        drawing.bar(place, 17, 12, 12, COLOURS[name])
        drawing.text(place + 18, 28, NAMES[name])
    bottom = 60 + row_height * len(BARS)
    for step in (0, 1, 2):
        x = left + scale * (step + 0.5)
        drawing.line([(x, 44), (x, bottom)], "#d0d7de", 1.0, "" if step == 0 else "3,3")
        drawing.text(x, bottom + 16, "%d" % 10 ** step, "middle", "#57606a", 12)
    for place, (name, row, more_is_better) in enumerate(BARS):
        other, ours, copy = rows[row]
        top = 54 + place * row_height
        drawing.text(left - 10, top + 15, name, "end")
        for offset, value, colour in ((0, ours, OURS), (14, copy, COPY)):
            ratio = value / other if more_is_better else other / value
            base, end = left + scale * 0.5, left + scale * (0.5 + math.log10(ratio))
            drawing.bar(min(base, end), top + offset, abs(end - base), 12 if offset == 0 else 6, colour)
            if offset == 0:
                drawing.text(max(base, end) + 6, top + 11, times(ratio), colour="#24292f", size=12)
    drawing.write("speed.svg")


def draw_lines(drawing, left, title, points, labels, unit):
    """One diagram with both axes by powers of ten. `points` has for each proxy its values."""
    top, height, width = 70, 220, 300
    values = [value for line in points for value in line]
    low, high = math.floor(math.log10(min(values))), math.ceil(math.log10(max(values)))
    drawing.text(left, 40, title, weight="bold", size=14)
    drawing.text(left, 58, unit, colour="#57606a", size=12)
    for power in range(low, high + 1):
        y = top + height * (high - power) / (high - low)
        drawing.line([(left, y), (left + width, y)], "#d0d7de", 1.0)
        drawing.text(left - 8, y + 4, "{:,.0f}".format(10 ** power) if power >= 0 else "{:g}".format(10 ** power), "end", "#57606a", 12)
    for index, label in enumerate(labels):
        x = left + 20 + (width - 40) * index / (len(labels) - 1)
        drawing.text(x, top + height + 20, label, "middle", "#57606a", 12)
    for line, colour in zip(points, COLOURS):
        places = [
            (left + 20 + (width - 40) * index / (len(line) - 1), top + height * (high - math.log10(value)) / (high - low))
            for index, value in enumerate(line)
        ]
        drawing.line(places, colour)
        for x, y in places:
            drawing.dot(x, y, colour)


def draw_growth(rows):
    drawing = Drawing(840, 350, "How the cost grows with the policy and with the calls in flight")
    connects = [[rows[start + "connect+SASL+Hello, CPU"][proxy] for _, start in ENTRIES] for proxy in range(3)]
    draw_lines(drawing, 90, "A connect, by entries of the policy", connects, ["{:,}".format(n) for n, _ in ENTRIES], "processor time, us")
    calls = [[rows[row][proxy] * 10 for _, row in FLIGHT] for proxy in range(3)]
    draw_lines(drawing, 500, "A call, by calls in flight", calls, [str(n) for n, _ in FLIGHT], "processor time, us")
    for place, name in ((90, 0), (230, 1), (340, 2)):
        drawing.bar(place, 322, 12, 12, COLOURS[name])
        drawing.text(place + 18, 333, NAMES[name])
    drawing.write("growth.svg")


def main():
    rows = measured()
    os.makedirs(PICTURES, exist_ok=True)
    draw_speed(rows)
    draw_growth(rows)


if __name__ == "__main__":
    main()
