"""Histories of clients, and whether one sequential order explains them.

An event is a call with its result, and when its client sent the request and had the reply. A
history is linearizable if there is an order of its events that keeps each one that ended before
another began before that other, and in which a sequential model of a file system (written from
docs/PROTOCOL.md alone) gives each result. The search tries the events that may come first, one
after the other, and remembers the states that it has reached (Wing and Gong).

A call is a tuple of words. Contents are cells of CELL equal bytes each: a WRITE of `count` cells
from cell `at` on has one value for all, and a READ gives the values. A handle is the number of the
event that opened it."""

from bisect import bisect_left
from typing import NamedTuple

CELL = 3000
OK, EOF, NONE, DENIED, FAILURE = "ok", "eof", "none", "denied", "failure"
READS, WRITES, APPENDS = 1, 2, 4
# The value of a cell with several.
TORN = 255


class Event(NamedTuple):
    """A call with this number, what it was answered, and when it began and ended."""

    number: int
    call: tuple
    result: tuple
    began: int
    ended: int


class Fails(Exception):
    """A call that changes nothing, and its result."""


class Tree(NamedTuple):
    """A state of the file system. Each call gives the next one, which may be the same, and the
    result. Object 0 is the root; another has the number of the event that made it."""

    # Objects by the directory that has their name, and the name.
    entries: dict
    # The cells of a file; None for a directory.
    objects: dict
    # What a handle opens: an object, and an access mode or the last listed name.
    handles: dict

    def after(self, event):
        """The state after a call, or None if its result is another one."""
        kind, *words = event.call
        try:
            after, *result = getattr(self, kind)(event.number, *words)
        except Fails as fault:
            after, result = self, fault.args
        return after if tuple(result) == event.result else None

    # Paths.

    def find(self, names):
        found = 0
        for name in names:
            found = self.entries.get((found, name))
            if found is None:
                return None
        return found

    def present(self, path):
        found = self.find(names_of(path))
        fails_if(found is None, NONE)
        return found

    def entry(self, path):
        """The directory in which a path has its last name, and this name."""
        *above, name = names_of(path)
        parent = self.find(above)
        fails_if(parent is None or not self.is_directory(parent), NONE)
        return parent, name

    def is_directory(self, number):
        return self.objects[number] is None

    def names(self, directory):
        return sorted(name for above, name in self.entries if above == directory)

    # States.

    def with_entry(self, place, number):
        return self._replace(entries={**self.entries, place: number})

    def without_entry(self, place):
        return self._replace(entries={it: self.entries[it] for it in self.entries if it != place})

    def with_object(self, number, cells):
        return self._replace(objects={**self.objects, number: cells})

    def with_handle(self, handle, *opened):
        return self._replace(handles={**self.handles, handle: opened})

    # Calls on paths.

    def stat(self, _number, path):
        return self, *self.kind(self.present(path))

    def kind(self, found):
        cells = self.objects[found]
        return ("directory",) if cells is None else ("file", len(cells))

    def mkdir(self, number, path):
        place = self.entry(path)
        fails_if(place in self.entries)
        return self.with_entry(place, number).with_object(number, None), OK

    def rmdir(self, _number, path):
        found = self.present(path)
        fails_if(not self.is_directory(found) or self.names(found))
        return self.without_entry(self.entry(path)), OK

    def remove(self, _number, path):
        fails_if(self.is_directory(self.present(path)))
        return self.without_entry(self.entry(path)), OK

    def open(self, number, path, mode=READS | WRITES, truncates=0):
        """The file is made if it is absent."""
        place = self.entry(path)
        found = self.entries.get(place)
        if found is None:
            return self.create(number, place, mode)
        fails_if(self.is_directory(found))
        tree = self.with_object(found, b"") if truncates else self
        return tree.with_handle(number, found, mode), "handle"

    def open_excl(self, number, path):
        place = self.entry(path)
        fails_if(place in self.entries)
        return self.create(number, place, READS | WRITES)

    def create(self, number, place, mode):
        tree = self.with_entry(place, number).with_object(number, b"")
        return tree.with_handle(number, number, mode), "handle"

    def opendir(self, number, path):
        found = self.present(path)
        fails_if(not self.is_directory(found))
        return self.with_handle(number, found, ""), "handle"

    def resize(self, _number, path, size):
        found = self.present(path)
        fails_if(self.is_directory(found))
        return self.with_object(found, self.objects[found][:size].ljust(size, b"\0")), OK

    def rename(self, _number, old, new):
        return self.move(old, new, False)

    def posix_rename(self, _number, old, new):
        return self.move(old, new, True)

    def move(self, old, new, replaces):
        found = self.present(old)
        if old == new:
            fails_if(not replaces)
            return self, OK
        fails_if(is_inside(old, new) or is_inside(new, old))
        place = self.entry(new)
        there = self.entries.get(place)
        if there is not None:
            fails_if(not replaces)
            if there == found:
                return self, OK
            fails_if(self.is_directory(there) != self.is_directory(found) or self.names(there))
        return self.without_entry(self.entry(old)).with_entry(place, found), OK

    def link(self, _number, old, new):
        found = self.present(old)
        fails_if(self.is_directory(found))
        place = self.entry(new)
        fails_if(place in self.entries)
        return self.with_entry(place, found), OK

    # Calls by handle.

    def opened(self, handle):
        fails_if(handle not in self.handles)
        return self.handles[handle]

    def close(self, _number, handle):
        self.opened(handle)
        left = {it: opened for it, opened in self.handles.items() if it != handle}
        return self._replace(handles=left), OK

    def fstat(self, _number, handle):
        return self, *self.kind(self.opened(handle)[0])

    def read(self, _number, handle, at, count):
        found, mode = self.opened(handle)
        cells = self.objects[found]
        fails_if(cells is None)
        fails_if(not mode & READS, DENIED)
        fails_if(at >= len(cells), EOF)
        return self, "cells", *cells[at : at + count]

    def write(self, _number, handle, at, count, value):
        found, mode = self.opened(handle)
        cells = self.objects[found]
        fails_if(cells is None)
        fails_if(not mode & WRITES, DENIED)
        at = len(cells) if mode & APPENDS else at
        data = cells[:at].ljust(at, b"\0") + bytes([value]) * count + cells[at + count :]
        return self.with_object(found, data), OK

    def readdir(self, _number, handle):
        found, last = self.opened(handle)
        fails_if(not self.is_directory(found))
        names = [name for name in self.names(found) if name > last]
        fails_if(not names, EOF)
        return self.with_handle(handle, found, names[-1]), "names", *names


def fails_if(condition, result=FAILURE):
    if condition:
        raise Fails(result)


def names_of(path):
    return path.split("/")


def is_inside(inner, outer):
    return inner.startswith(outer + "/")


def is_linearizable(clients, most_states):
    """Whether an order explains what the clients report, each a list of its events one after the
    other; None if so many states do not suffice to decide it."""
    left = [(tuple(0 for _ in clients), Tree({}, {0: None}, {}))]
    # The states that were reached, by how many events of each client came before.
    seen, count = {}, 0
    while left and count <= most_states:
        done, tree = left.pop()
        if not any(count < len(client) for client, count in zip(clients, done)):
            return True
        for place, after in next_states(clients, done, tree):
            then = (*done[:place], done[place] + 1, *done[place + 1 :])
            states = seen.setdefault(then, [])
            if after not in states:
                states.append(after)
                left.append((then, after))
                count += 1
    return None if left else False


def next_states(clients, done, tree):
    """The states after each event that may come next, with its client. An event whose result says
    that it changes nothing comes at once, alone: if it may come later, it may come now."""
    found = []
    for place, event in next_events(clients, done):
        after = tree.after(event)
        # A rename may be OK and change nothing now, and something later.
        if after is tree and event.result != (OK,):
            return [(place, tree)]
        if after is not None:
            found.append((place, after))
    return found


def next_events(clients, done):
    """Those that may come next, with their clients; the last one is the most likely."""
    found = [
        (place, client[count])
        for place, (client, count) in enumerate(zip(clients, done))
        if count < len(client)
    ]
    first_end = min((event.ended for _, event in found), default=0)
    # What began after another one's end does not come before it.
    found = [it for it in found if it[1].began <= first_end]
    return sorted(found, key=lambda it: -it[1].ended)


def overlapping(clients):
    """How many pairs of events overlap. No two of one client do."""
    events = [event for client in clients for event in client]
    began, ended = sorted(it.began for it in events), sorted(it.ended for it in events)
    in_order = sum(bisect_left(ended, it) for it in began)
    return len(events) * (len(events) - 1) // 2 - in_order


def history(text):
    """The clients of a history in lines, `CLIENT BEGAN-ENDED CALL > RESULT # NUMBER`. Without a
    number an event has that of its line."""
    clients = {}
    for place, line in enumerate(text.strip().splitlines(), 1):
        line, _, number = line.partition(" # ")
        (client, times, *call), result = (part.split() for part in line.split(" > "))
        began, ended = map(int, times.split("-"))
        event = Event(int(number or place), words(call), words(result), began, ended)
        clients.setdefault(client, []).append(event)
    return list(clients.values())


def words(parts):
    return tuple(int(part) if part.isdigit() else part for part in parts)


def text_of(clients):
    """A history as `history` reads it."""
    lines = []
    for place, client in enumerate(clients, 1):
        for event in client:
            call, result = (" ".join(map(str, part)) for part in (event.call, event.result))
            times = f"{event.began}-{event.ended}"
            lines.append((event.began, f"{place} {times} {call} > {result} # {event.number}"))
    return "\n".join(line for _, line in sorted(lines))
