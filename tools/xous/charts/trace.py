"""A chart as a trace for Perfetto: Chrome's trace-event JSON.

Processes and threads are named, and a step is a microsecond. A mark is a slice of one step, a wait a slice as long as it lasts, a message
a flow from its send to its delivery, and from its return to the caller, and pages on loan are a slice beside their process.
"""

from __future__ import annotations

import json

from .chart import BOTTOM, TOP, Chart


class Trace:
    """The events of a trace, in the order of their parts."""

    def __init__(self, chart: Chart, named):
        self.chart, self.named = chart, named
        self.events: list[dict] = []
        self.last = (chart.bounds[1] if chart.bounds else 0) + 1

    def step(self, row) -> int:
        if row is BOTTOM:
            return self.last
        return (self.chart.bounds[0] - 1 if self.chart.bounds else 0) if row == TOP else self.chart.steps[row]

    def add(self, phase: str, name: str, step: int, thread: tuple[int, int], **more) -> None:
        self.events.append({"ph": phase, "name": name, "ts": step, "pid": thread[0], "tid": thread[1], **more})

    def name_lanes(self) -> None:
        for pid in dict.fromkeys(pid for pid, _ in self.chart.lanes()):
            self.add("M", "process_name", 0, (pid, 0), args={"name": f"{self.named.process(pid)} (pid {pid})"})
        for thread in self.chart.lanes():
            self.add("M", "thread_name", 0, thread, args={"name": f"thread {thread[1]}" if thread[1] != 1 else "interrupts"})

    def add_marks(self) -> None:
        for mark in self.chart.marks:
            lines = {"lines": "\n".join(line for line, _ in mark.lines)} if mark.lines else {}
            self.add("X", mark.label or mark.kind, self.step(mark.row), mark.thread, dur=1, cat=mark.kind, args=lines)

    def add_waits(self) -> None:
        for wait in self.chart.waits:
            start, end = self.step(wait.first), self.step(wait.last)
            self.add("X", wait.label, start, wait.thread, dur=max(end - start, 1), cat="wait")

    def add_runs(self) -> None:
        for run in self.chart.runs:
            self.add("X", "runs", run.first, run.thread, dur=run.last - run.first + 1, cat="run")

    def add_flows(self) -> None:
        for number, arrow in enumerate(self.chart.arrows, 1):
            (first, start), (last, end) = arrow.start, arrow.end
            name = arrow.label or arrow.kind
            self.add("s", name, self.step(first), start, id=number, cat=arrow.kind)
            self.add("f", name, self.step(last), end, id=number, cat=arrow.kind, bp="e")

    def add_loans(self) -> None:
        for number, span in enumerate(self.chart.loan_spans(), 1):
            for phase, row in (("b", span.first), ("e", span.last)):
                self.add(phase, span.label, self.step(row), span.thread, id=number, cat="loan")


def tree(chart: Chart, named, title: str) -> dict:
    trace = Trace(chart, named)
    for put in (trace.name_lanes, trace.add_runs, trace.add_marks, trace.add_waits, trace.add_flows, trace.add_loans):
        put()
    return {"traceEvents": trace.events, "displayTimeUnit": "ns", "otherData": {"transcript": title}}


def text(chart: Chart, named, title: str) -> str:
    return json.dumps(tree(chart, named, title)) + "\n"
