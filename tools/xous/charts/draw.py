"""A chart as SVG: lanes side by side, steps downwards."""

from __future__ import annotations

import re
import textwrap
from bisect import bisect_left, bisect_right
from xml.etree import ElementTree

from ..transcripts import decode
from . import chart as model

ROW, HEAD, FIRST, FOOT = 36, 50, 30, 26  # heights: of a row, of the lanes' names, above the first row, below the last
STEPS = 58  # the width of the steps' numbers
LETTER = 6.3  # the width of a letter of a label, roughly
LABEL, MOST_LABEL, LEAST_LABEL = 12, 330, 90  # of the space right of a lane: where labels begin, and widths
SLOT = 8  # the width of a loan's bar with its gap
SHORT = 52  # letters of a label in one line
LEGEND_ITEM, LEGEND_ROW = 168, 20

HUES = ("#00796b", "#0063a5", "#7b3f98", "#8a6400", "#37598a", "#a0405f")
RED, GREY, PALE, ORANGE, BLUE, INK = "#c62828", "#5f6b76", "#e3e7eb", "#e69f00", "#56b4e9", "#263238"

NOT_XML = re.compile("[^\\t\\n\\r\\u0020-\\ud7ff\\ue000-\\ufffd\\U00010000-\\U0010ffff]")
STYLE = f"""
text {{ font: 11px "DejaVu Sans", Verdana, Helvetica, Arial, sans-serif; fill: #1d2730 }}
.halo {{ paint-order: stroke; stroke: #fff; stroke-width: 3px; stroke-linejoin: round }}
.step, .note {{ fill: {GREY}; font-size: 10px }}
.note {{ font-style: italic }}
.bad {{ fill: {RED} }}
.name {{ font-weight: bold; fill: #fff }}
.lane {{ font-size: 10px; text-anchor: middle }}
.mono {{ font-family: "DejaVu Sans Mono", Menlo, Consolas, monospace; font-size: 11px }}
.left {{ text-anchor: end }}
"""


def length(value):
    return f"{value:.1f}".removesuffix(".0")


def add(parent, tag, **attributes):
    """A child. In names of attributes `_` stands for `-`, and behind words of Python for nothing."""
    words = {}
    for name, value in attributes.items():
        if value is not None:
            words[name.strip("_").replace("_", "-")] = length(value) if isinstance(value, float) else str(value)
    return ElementTree.SubElement(parent, tag, words)


def write(parent, x, y, text, classes="", **attributes):
    found = add(parent, "text", x=float(x), y=float(y), class_=classes or None, **attributes)
    found.text = text
    return found


def titled(parent, text, classes="m", message=None):
    """A group with a text that a browser shows where it is pointed at."""
    group = add(parent, "g", class_=classes, data_message=message)
    add(group, "title").text = text
    return group


def short(text, most=SHORT):
    return text if len(text) <= most else f"{text[: most - 1]}…"


def in_two(text):
    """A text in at most two lines of much the same length, the second cut where it is too long."""
    for width in range(len(text) // 2 + 1, SHORT + 1):
        lines = textwrap.wrap(text, width, break_long_words=False)
        if len(lines) <= 2 and all(len(line) <= SHORT for line in lines):
            return lines
    first, *rest = textwrap.wrap(text, SHORT, break_long_words=False)
    return [short(first), short(" ".join(rest))] if rest else [short(first)]


class Drawing:
    """The places of a chart's parts, and the parts."""

    def __init__(self, chart, named):
        self.chart, self.named = chart, named
        self.lanes = chart.lanes()
        self.pids = sorted({pid for pid, _ in self.lanes})
        self.spans = [span for span in chart.loan_spans() if span.thread in self.lanes]
        self.numbers = {}
        self.slots = self.slots_of_spans()
        self.place_lanes()
        self.height = FIRST + ROW * (len(chart.steps) - 1) + FOOT
        self.sides = self.sides_of_marks()
        self.noted = {(wait.first, wait.thread) for wait in chart.waits}

    # Places.

    def slots_of_spans(self):
        """For each span of a loan, how far left of its lane it stands: two at one time stand side by side."""
        slots, used = {}, {}
        for span in sorted(self.spans, key=lambda span: span.first):
            ends = used.setdefault(span.thread, [])
            last = len(self.chart.steps) if span.last is model.BOTTOM else span.last
            place = next((at for at, end in enumerate(ends) if end <= span.first), len(ends))
            ends[place : place + 1] = [last]
            slots[span] = place
        self.used = {thread: len(ends) for thread, ends in used.items()}
        return slots

    def label_width(self, thread):
        own = [mark for mark in self.chart.marks if mark.thread == thread]
        labels = [len(line) for mark in own for line in self.lines_of(mark)]
        notes = [len(wait.label) - 2 for wait in self.chart.waits if wait.thread == thread]
        return min(max([LEAST_LABEL, *(LETTER * count for count in labels + notes)]), MOST_LABEL)

    def place_lanes(self):
        self.x, self.edges, at = {}, {}, float(STEPS)
        for thread in self.lanes:
            start = at + 8
            lane = start + 10 + SLOT * self.used.get(thread, 0)
            at = lane + LABEL + self.label_width(thread) + 6
            self.x[thread], self.edges[thread] = lane, (start, at)
        self.width = at + 8

    def y(self, row):
        if row == model.TOP:
            return 0.0
        if row is model.BOTTOM:
            return float(self.height)
        return float(FIRST + ROW * row)

    def sides_of_marks(self):
        """Where the arrows of a mark go: labels make room for them."""
        sides = {}
        for arrow in self.chart.arrows:
            (first, start), (last, end) = arrow.start, arrow.end
            if start in self.x and end in self.x and start != end:
                goes_right = self.x[end] > self.x[start]
                if first != model.TOP:
                    sides.setdefault((first, start), set()).add("leaves right" if goes_right else "leaves left")
                sides.setdefault((last, end), set()).add("comes left" if goes_right else "comes right")
        return sides

    def hue(self, thread):
        return HUES[self.pids.index(thread[0]) % len(HUES)]

    def number(self, message):
        """A number of the chart's own for a message, by which its parts belong together."""
        return None if message is None else self.numbers.setdefault(message, len(self.numbers) + 1)

    def step_text(self, row):
        if row == model.TOP:
            return "before"
        return "the end" if row is model.BOTTOM else f"step {self.chart.steps[row]}"

    # Parts.

    def head(self, parent):
        """The names of processes and lanes."""
        for pid in self.pids:
            own = [thread for thread in self.lanes if thread[0] == pid]
            left, right = self.edges[own[0]][0], self.edges[own[-1]][1]
            add(parent, "rect", x=left, y=6.0, width=right - left, height=20.0, rx=4, fill=self.hue(own[0]))
            name = self.named.processes.get(pid)
            write(parent, left + 8, 20, f"{name} (pid {pid})" if name else f"pid {pid}", "name")
            for thread in own:
                text = "interrupts" if thread[1] == decode.INTERRUPT_THREAD else f"thread {thread[1]}"
                write(parent, self.x[thread], 41, f"{pid}.{thread[1]}", "lane").set("fill", self.hue(thread))
                if self.edges[thread][1] - self.x[thread] > 80:
                    write(parent, self.x[thread] + 16, 41, text, "note")

    def steps(self, parent):
        """The numbers of the steps, one in each row."""
        for row, step in enumerate(self.chart.steps):
            write(parent, STEPS - 8, self.y(row) + 4, str(step), "step left")

    def body(self, parent):
        for row in range(len(self.chart.steps)):
            add(parent, "line", x1=float(STEPS), x2=self.width - 4, y1=self.y(row), y2=self.y(row), stroke=PALE)
        self.steps(parent)
        for thread in self.lanes:
            self.lifeline(parent, thread)
        for run in self.chart.runs:
            self.run(parent, run)
        for wait in self.chart.waits:
            self.wait(parent, wait)
        for span in self.spans:
            self.loan(parent, span)
        for arrow in self.chart.arrows:
            self.arrow(parent, arrow)
        for mark in self.chart.marks:
            self.mark(parent, mark)
        for wait in self.chart.waits:
            self.wait_label(parent, wait)
        for arrow in self.chart.arrows:
            self.arrow_label(parent, arrow)

    def lifeline(self, parent, thread):
        x = self.x[thread]
        for first, last in self.chart.lives.get(thread, ()):
            add(parent, "line", x1=x, x2=x, y1=self.y(first), y2=self.y(last), stroke=self.hue(thread), stroke_width=2)

    def run(self, parent, run):
        """A band beside the lane of a thread, over the rows of the steps that it did."""
        first, last = bisect_left(self.chart.steps, run.first), bisect_right(self.chart.steps, run.last) - 1
        if run.thread not in self.x or first > last:
            return
        steps = f"steps {run.first} to {run.last}" if run.last > run.first else f"step {run.first}"
        group = titled(parent, f"{self.named.thread(run.thread)} runs, {steps}", "m run")
        place = {"x": self.x[run.thread] - 5, "y": self.y(first) - ROW / 2, "width": 10.0}
        add(group, "rect", **place, height=self.y(last) - self.y(first) + ROW, rx=3, fill=self.hue(run.thread), fill_opacity="0.28")

    def wait(self, parent, wait):
        if wait.thread not in self.x:
            return
        first, last = self.y(wait.first), self.y(wait.last)
        steps = f"{self.step_text(wait.first)} to {self.step_text(wait.last)}"
        group = titled(parent, f"{self.named.thread(wait.thread)} {wait.label}, {steps}", "m wait")
        x = self.x[wait.thread]
        how = {"fill": "#fff", "stroke": GREY, "stroke_dasharray": "3 2"}
        add(group, "rect", x=x - 3.5, y=first, width=7.0, height=last - first, **how)

    def wait_label(self, parent, wait):
        if wait.thread in self.x:
            write(parent, self.x[wait.thread] + LABEL, self.y(wait.first) + 18, short(wait.label), "note halo")

    def loan(self, parent, span):
        first, last = self.y(span.first), self.y(span.last)
        steps = f"{self.step_text(span.first)} to {self.step_text(span.last)}"
        of = f"{self.named.process(span.thread[0])}: {span.label}"
        number = f" (message {span.message.number})" if span.message.number else ""
        group = titled(parent, f"{of}{number}, {steps}", "m loan", self.number(span.message))
        x = self.x[span.thread] - 8 - SLOT * (self.slots[span] + 1) + 2
        how = {"fill": ORANGE if span.mutable else BLUE, "fill_opacity": "0.9" if span.is_holder else "0.55"}
        add(group, "rect", x=x, y=first, width=6.0, height=max(last - first, 6.0), rx=2, stroke="#fff", **how)

    def arrow_places(self, arrow):
        (first, start), (last, end) = arrow.start, arrow.end
        if start not in self.x or end not in self.x:
            return None
        return self.x[start], self.y(first), self.x[end], self.y(last)

    def arrow_text(self, arrow):
        (first, start), (last, end) = arrow.start, arrow.end
        from_, to = self.named.thread(start), self.named.thread(end)
        number = f" (message {arrow.message.number})" if arrow.message and arrow.message.number else ""
        what = {
            model.START: f"{from_} starts {to}",
            model.ENDED: f"{from_} ends, and {to} goes on, which joined it",
        }.get(arrow.kind, f"{from_} to {to}: {arrow.label}{number}")
        steps = dict.fromkeys((self.step_text(first), self.step_text(last)))
        return f"{what}, {' to '.join(steps)}"

    def arrow(self, parent, arrow):
        places = self.arrow_places(arrow)
        if not places:
            return
        x1, y1, x2, y2 = places
        group = titled(parent, self.arrow_text(arrow), f"m {arrow.kind}", self.number(arrow.message))
        hue = INK if arrow.kind in (model.SEND, model.ANSWER) else GREY
        dashes = {model.ANSWER: "6 3", model.START: "2 3", model.ENDED: "2 3"}.get(arrow.kind)
        how = {"fill": "none", "stroke": hue, "stroke_width": 1.4, "stroke_dasharray": dashes}
        if x1 == x2:
            left = length(x1 - 34)
            path = f"M{length(x1)},{length(y1)} C{left},{length(y1 + 6)} {left},{length(y2 - 6)} {length(x2 - 6)},{length(y2)}"
            add(group, "path", d=path, **how)
            self.tip(group, x2, y2, -1.0, 0.0, hue)
        else:
            size = ((x2 - x1) ** 2 + (y2 - y1) ** 2) ** 0.5
            across, down = (x1 - x2) / size, (y1 - y2) / size  # back along the line
            add(group, "line", x1=x1, y1=y1, x2=x2 + 6 * across, y2=y2 + 6 * down, **how)
            self.tip(group, x2, y2, across, down, hue)

    def tip(self, group, x, y, across, down, hue):
        """The head of an arrow to a mark, whose line leads back in this direction."""
        corners = [(5, 0), (13, 3.6), (13, -3.6)]
        points = [f"{length(x + back * across - side * down)},{length(y + back * down + side * across)}" for back, side in corners]
        add(group, "polygon", points=" ".join(points), fill=hue)

    def arrow_label(self, parent, arrow):
        places = self.arrow_places(arrow)
        if not places or not arrow.label:
            return
        x1, y1, x2, _ = places
        if x1 == x2 or arrow.start[0] == model.TOP:
            return
        # Above an arrow to the left, where it leaves; below one to the right, whose call's label stands above.
        if x2 < x1:
            text = write(parent, self.edges[arrow.start[1]][0] - 2, y1 - 6, short(arrow.label), "note halo left")
        else:
            text = write(parent, x1 + LABEL, y1 + 14, short(arrow.label), "note halo")
        text.set("data-message", str(self.number(arrow.message)))

    def mark(self, parent, mark):
        lines = "\n".join(f"{text}\n    {line}" for line, text in mark.lines)
        more = f"\n(and as many more as make {mark.count})" if mark.count > 1 else ""
        group = titled(parent, lines + more, f"m mark {mark.kind}", self.number(mark.message))
        group.set("data-row", str(mark.row))
        group.set("data-lane", str(self.lanes.index(mark.thread)))
        x, y = self.x[mark.thread], self.y(mark.row)
        SHAPES[mark.kind](self, group, mark, x, y)
        if mark.kind == model.TEXT:
            self.console(group, mark, x, y)
        else:
            self.label(group, mark, x, y)

    def lines_of(self, mark):
        """The lines of a mark's label: two where one is too short, as of faults."""
        return [mark.label] if len(mark.label) <= SHORT else in_two(mark.label)

    def label(self, group, mark, x, y):
        sides = self.sides.get((mark.row, mark.thread), ())
        bad = " bad" if mark.kind in (model.REFUSED, decode.FAULT, model.DEATH) else ""
        lines = self.lines_of(mark)
        if "leaves right" in sides or mark.kind == model.DEATH and self.has_lane_right(mark.thread):
            at, lines = y - 6, [short(mark.label)]
        elif "comes right" in sides:
            at, lines = y + 14, [short(mark.label)]
        else:
            above = 12 if (mark.row, mark.thread) in self.noted else 6  # what a wait is for stands below
            at = y + 4 - above * (len(lines) - 1)
        for place, line in enumerate(lines):
            write(group, x + LABEL, at + 12 * place, line, f"halo{bad}")

    def has_lane_right(self, thread):
        """Whether the line of a death goes on from this lane to the right."""
        place = self.lanes.index(thread) + 1
        return place < len(self.lanes) and self.lanes[place][0] == thread[0]

    def console(self, group, mark, x, y):
        width = LETTER * 1.1 * len(mark.label) + 8
        add(group, "rect", x=x + LABEL - 2, y=y - 9, width=width, height=17.0, rx=3, fill="#fffde7", stroke="#b8ab6e")
        write(group, x + LABEL + 2, y + 4, mark.label, "mono")

    def dot(self, group, mark, x, y):
        add(group, "circle", cx=x, cy=y, r=4.5, fill=self.hue(mark.thread), stroke="#fff")

    def ring(self, group, mark, x, y):
        add(group, "circle", cx=x, cy=y, r=4.5, fill="#fff", stroke=self.hue(mark.thread), stroke_width=2)

    def red_ring(self, group, _mark, x, y):
        add(group, "circle", cx=x, cy=y, r=5.0, fill="#fff", stroke=RED, stroke_width=2)
        add(group, "path", d=f"M{x - 2.5:.1f},{y - 2.5:.1f} l5,5 m0,-5 l-5,5", stroke=RED, stroke_width=1.5)

    def again(self, group, mark, x, y):
        how = {"fill": "#fff", "stroke": self.hue(mark.thread), "stroke_width": 2, "stroke_dasharray": "3 2"}
        add(group, "circle", cx=x, cy=y, r=4.5, **how)

    def square(self, group, mark, x, y):
        how = {"fill": "#fffde7", "stroke": self.hue(mark.thread), "stroke_width": 1.5}
        add(group, "rect", x=x - 4, y=y - 4, width=8.0, height=8.0, **how)

    def triangle(self, group, _mark, x, y):
        add(group, "path", d=f"M{x:.1f},{y - 8:.1f} l7,13 h-14 z", fill=RED, stroke="#fff")

    def cross(self, group, mark, x, y):
        own = [thread for thread in self.lanes if thread[0] == mark.thread[0]]
        if len(own) > 1:
            add(group, "line", x1=self.x[own[0]], x2=self.x[own[-1]], y1=y, y2=y, stroke=RED, stroke_dasharray="4 3")
        add(group, "path", d=f"M{x - 6:.1f},{y - 6:.1f} l12,12 m0,-12 l-12,12", stroke=RED, stroke_width=3, fill="none")

    def bar(self, group, mark, x, y):
        add(group, "path", d=f"M{x - 7:.1f},{y:.1f} h14", stroke=self.hue(mark.thread), stroke_width=4)

    def dash(self, group, mark, x, y):
        add(group, "path", d=f"M{x - 4:.1f},{y:.1f} h8", stroke=self.hue(mark.thread), stroke_width=3)

    def diamond(self, group, _mark, x, y):
        add(group, "path", d=f"M{x:.1f},{y - 7:.1f} l7,7 l-7,7 l-7,-7 z", fill=ORANGE, stroke="#fff")

    # The words under the chart.

    def legend(self, parent):
        """What the signs mean, in rows; answers the height."""
        across = max(1, int((self.width - STEPS) // LEGEND_ITEM))
        signs = LEGEND + LEGEND_OF_RUNS * bool(self.chart.runs)
        for place, (sign, text) in enumerate(signs):
            x = STEPS + 8.0 + LEGEND_ITEM * (place % across)
            y = 14.0 + LEGEND_ROW * (place // across)
            sign(parent, x, y)
            write(parent, x + 16, y + 4, text, "step")
        return 12 + LEGEND_ROW * (-(-len(signs) // across))


SHAPES = {
    model.SERVED: Drawing.dot,
    model.REFUSED: Drawing.red_ring,
    model.AGAIN: Drawing.again,
    model.TEXT: Drawing.square,
    model.DEATH: Drawing.cross,
    model.RUN: Drawing.dash,
    decode.REPLY: Drawing.ring,
    decode.FAULT: Drawing.triangle,
    decode.END: Drawing.bar,
    decode.IRQ: Drawing.diamond,
}


def sign_of_line(dashes):
    def put(parent, x, y):
        how = {"stroke": INK, "stroke_width": 1.4, "stroke_dasharray": dashes}
        add(parent, "path", d=f"M{length(x - 8)},{length(y)} h16", **how)

    return put


def sign_of_box(width, fill, dashes=None):
    def put(parent, x, y):
        how = {"fill": fill, "stroke": GREY if dashes else None, "stroke_dasharray": dashes}
        add(parent, "rect", x=x - width / 2, y=y - 7, width=float(width), height=14.0, **how)

    return put


def sign_of_circle(fill, stroke, dashes=None):
    def put(parent, x, y):
        how = {"fill": fill, "stroke": stroke, "stroke_width": 2, "stroke_dasharray": dashes}
        add(parent, "circle", cx=x, cy=y, r=4.5, **how)

    return put


def sign_of_path(path, fill, stroke=None):
    def put(parent, x, y):
        how = {"fill": fill, "stroke": stroke, "stroke_width": 3 if stroke else None}
        add(parent, "path", d=f"M{length(x)},{length(y)} {path}", **how)

    return put


LEGEND = (
    (sign_of_circle(HUES[0], "#fff"), "a call, and its reply"),
    (sign_of_circle("#fff", HUES[0]), "a reply that comes later"),
    (sign_of_circle("#fff", RED), "refused"),
    (sign_of_circle("#fff", HUES[0], "3 2"), "to be tried again"),
    (sign_of_box(7, "#fff", "3 2"), "the thread waits"),
    (sign_of_line(None), "a message is delivered"),
    (sign_of_line("6 3"), "it is answered"),
    (sign_of_line("2 3"), "a thread starts or is joined"),
    (sign_of_box(6, ORANGE), "pages on mutable lend"),
    (sign_of_box(6, BLUE), "pages on lend"),
    (sign_of_path("m0,-7 l7,7 l-7,7 l-7,-7 z", ORANGE), "an interrupt"),
    (sign_of_path("m-6,-6 l12,12 m0,-12 l-12,12", "none", RED), "a death"),
)

LEGEND_OF_RUNS = (
    (sign_of_box(10, f"{HUES[0]}47"), "the thread runs"),
    (sign_of_path("m-4,0 h8", "none", HUES[0]), "it runs without a line"),
)


def outer(width, height, title):
    """An SVG element of this size."""
    size = f"{width:.0f}", f"{height:.0f}"
    box = {"viewBox": f"0 0 {size[0]} {size[1]}", "width": size[0], "height": size[1]}
    element = ElementTree.Element("svg", {"xmlns": "http://www.w3.org/2000/svg", **box, "role": "img"})
    if title:
        add(element, "title").text = title
    return element


def clean(text):
    """A text without what XML can't have, as control bytes of a file's name."""
    return NOT_XML.sub("?", text)


def text_of(element):
    for each in element.iter():
        each.text = clean(each.text) if each.text else each.text
    return ElementTree.tostring(element, encoding="unicode")


def svg(chart, named, title):
    """The chart as one picture."""
    drawing = Drawing(chart, named)
    legend = ElementTree.Element("g")
    height = HEAD + drawing.height + 10
    below = drawing.legend(legend)
    element = outer(drawing.width, height + below, title)
    add(element, "style").text = STYLE
    add(element, "rect", width="100%", height="100%", fill="#fff")
    drawing.head(add(element, "g"))
    drawing.body(add(element, "g", transform=f"translate(0,{HEAD})"))
    legend.set("transform", f"translate(0,{height})")
    element.append(legend)
    ElementTree.indent(element, " ")
    return text_of(element) + "\n"
