"""Event files that together begin all orders of an image, so that a search behind each of them is a part of the whole search.

A prefix is a path of slices from the start (docs/orders.md). The tree of slices is cut where it has as many leaves as are asked for;
of leaves that are one node, one is enough.
"""

from __future__ import annotations

import collections

from ..runs import orders


class Prefixes:
    """The leaves of a cut through the tree of slices."""

    def __init__(self, search: orders.Search):
        self.search = search
        self.known: set[tuple] = set()

    def is_new(self, node: orders.Node) -> bool:
        if orders.has_timer(node.machine) and not self.search.counts:
            raise orders.TimerClaimed
        key = orders.key_of(node, self.search.counts)
        is_new = key not in self.known
        self.known.add(key)
        return is_new

    def leaves(self, count: int) -> list[orders.Node]:
        """At least so many nodes, or all endings if there are fewer: each order goes through one of them, or ends there."""
        first = self.search.visited(self.search.played(list(self.search.asked.first)))
        self.is_new(first)
        inner, ended = collections.deque([first]), list[orders.Node]()
        while inner and len(inner) + len(ended) < count:
            node = inner.popleft()
            if self.search.is_ending(node):
                ended.append(node)
                continue
            followers = [self.search.slice_of(node, who) for who in node.machine.ready()]
            inner += [other for other in followers if self.is_new(other)]
        return [*ended, *inner] or [first]  # a service that never ends has no leaf


def leaves_of(search: orders.Search, count: int) -> list[orders.Node]:
    """The leaves, where steps count if any order comes to a claim of the timer's interrupt."""
    try:
        return Prefixes(search).leaves(count)
    except orders.TimerClaimed:
        again = orders.Search(search.program, search.image, search.asked, search.folder, counts=True)
        return Prefixes(again).leaves(count)
