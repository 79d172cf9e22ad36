"""Runs of a schedule by a program that replays it, in which an allocation fails, and what must be
true of each."""

import copy
import re
import subprocess
import tempfile

from checks import same
from packets import HANDLE
from tree import Tree, out_of_memory

REFUSED = "refused OutOfMemory"
STATE = ("output ", "calls ", "record ")
# In how many ways an engine may ask for the same room.
MOST_TRIES = 4


class Replayed:
    """What a program printed of a schedule: what came of each event, the state after each where
    that was asked, and where an event was refused."""

    def __init__(self, lines, printed):
        self.found = printed.splitlines()
        same(self.found[-1:], ["end"])
        self.refused = []
        self.outcomes = []
        self.states = []
        same(self.found.pop(0), "read")
        if self.found[0] == REFUSED:
            self.refused.append((-1, []))
            self.found.pop(0)
        same(self.found.pop(0), "begun")
        for line in lines:
            if line == "state":
                self.states.append(self.state())
            else:
                self.event(len(self.outcomes))
        same(self.found, ["end"])

    def event(self, number):
        outcome = self.found.pop(0)
        if outcome == REFUSED:
            self.refused.append((number, self.state()))
            outcome = self.found.pop(0)
        self.outcomes.append(outcome)

    def state(self):
        """The lines of a state, which are what comes next."""
        count = next(k for k, line in enumerate(self.found) if not line.startswith(STATE))
        taken, self.found = self.found[:count], self.found[count:]
        return taken

    def outputs(self):
        """What each session was sent by the end."""
        found = [line.split(" ") for line in self.states[-1] if line.startswith("output ")]
        return {int(session): bytes.fromhex(data) for _, session, data in found}

    def records(self):
        """The number, the session and the moment of each call that is recorded, in their order, and
        whether it found no memory."""
        found = [line for line in self.states[-1] if line.startswith("record Did ")]
        pattern = re.compile(r"record Did \{ number: (\d+), session: (\d+), moment: (\d+), ")
        numbers = [map(int, pattern.match(line).groups()) for line in found]
        refused = ["NoMemory" in line.rsplit("reply:", 1)[1] for line in found]
        return [(*some, no_memory) for some, no_memory in zip(numbers, refused)]


class Program:
    """A program that replays schedules."""

    def __init__(self, path, shows_records):
        self.path = path
        self.shows_records = shows_records

    def run(self, growths, lines, left=0, count=0):
        """Runs it on a schedule. After so many growths, some are refused, one after the other."""
        growths.forget()
        growths.refuse(left, count)
        options = {"capture_output": True, "text": True, "timeout": 60, "env": growths.surroundings}
        with tempfile.TemporaryFile("w+") as file:
            file.writelines(line + "\n" for line in lines)
            file.seek(0)
            return subprocess.run([self.path], stdin=file, **options)

    def replay(self, growths, lines, left=0, count=0):
        """What it prints then. It ends well, and holds nothing."""
        done = self.run(growths, lines, left, count)
        same((done.returncode, done.stderr), (0, ""))
        same(growths.held(), 0)
        return Replayed(lines, done.stdout)

    def own_growths(self, growths, lines):
        """How many growths come before the engine's: those of a program that reads its schedule
        first. Where one of them is refused, it ends before it began."""
        least, most = 0, 1 << 20
        while least < most:
            middle = (least + most) // 2
            if self.run(growths, lines, middle, MOST_TRIES).stdout:
                most = middle
            else:
                least = middle + 1
        return least


class Called:
    """A request of a session, its reply, the events at which its call began, if it did, and its
    reply was written, and the moment of the first of them."""

    def __init__(self, session, request, reply, began, wrote, moment):
        self.session = session
        self.moment = moment
        self.request = request
        self.reply = reply
        self.began = began
        self.wrote = wrote
        self.is_refused = reply == out_of_memory(int.from_bytes(request[5:9], "big"))


def packets_of(data):
    found = []
    while data:
        length = 4 + int.from_bytes(data[:4], "big")
        found.append(data[:length])
        data = data[length:]
    return found


def turns_of(lines, outcomes, session):
    """The numbers of a session's turns, each with its moment and what came of it."""
    events = [line.split() for line in lines if line != "state"]
    turns = [(k, event) for k, event in enumerate(events) if event[:2] == ["turn", str(session)]]
    return [(k, int(event[2]), outcomes[k].split("(")[0]) for k, event in turns]


def times_of(lines, outcomes, session):
    """For each of its replies, when the call began, if one did, when it was written, and the call's
    moment."""
    found, began, begun_at = [], None, None
    for number, moment, outcome in turns_of(lines, outcomes, session):
        if outcome == "Begun":
            began, begun_at = number, moment
        elif outcome == "Wrote":
            found.append((began, number, begun_at))
            began = None
    return found


def calls_of(schedule, replayed, session):
    """A session's calls. Its first reply is VERSION."""
    replies = packets_of(replayed.outputs()[session])[1:]
    requests = schedule.requests[session]
    same(len(replies), len(requests))
    times = times_of(schedule.lines, replayed.outcomes, session)[1:]
    same(len(times), len(replies))
    return [Called(session, *asked, *told) for *asked, told in zip(requests, replies, times)]


class Told:
    """The calls of a run, each session's in its order, to be taken one by one."""

    def __init__(self, schedule, replayed):
        sessions = schedule.requests
        self.left = {session: calls_of(schedule, replayed, session) for session in sessions}
        calls = [call for calls in self.left.values() for call in calls]
        self.refused = sum(call.is_refused for call in calls)
        self.begins = sorted(call.began for call in calls if call.began is not None)
        self.skipped = len(calls) - len(self.begins)
        for call in calls:
            if call.began is None:
                same(call.is_refused, True)

    def take(self, session):
        """The session's next call that began. One that didn't was refused, and the tree never had
        it."""
        while True:
            call = self.left[session].pop(0)
            if call.began is not None:
                return call

    def numbers(self, call):
        """The numbers that a call may have: those of the calls that couldn't begin may have been
        used."""
        first = self.begins.index(call.began) + 1
        return range(first, first + self.skipped + 1)

    def next_calls(self):
        """The sessions whose next call no other call must come before, since that one was answered
        before it began."""
        firsts = {}
        for session, calls in self.left.items():
            begun = [call for call in calls if call.began is not None]
            if begun:
                firsts[session] = begun[0]
        last = min((call.wrote for call in firsts.values()), default=0)
        return [session for session, call in firsts.items() if call.began < last]


def fits(tree, call, number):
    """Whether the tree answers a call so. A call that was refused changes nothing."""
    if call.is_refused:
        return True
    return tree.answer(call.session, number, call.moment, call.request) == call.reply


def follow(told, records):
    """The tree answers the calls so, in the order of the records, each of which stands between the
    call's beginning and its reply."""
    tree = Tree()
    for number, session, *recorded in records:
        same(session in told.next_calls(), True)
        call = told.take(session)
        same(recorded, [call.moment, call.is_refused])
        if number not in told.numbers(call):
            raise AssertionError(f"a call has the number {number}")
        if not fits(tree, call, number):
            raise AssertionError(f"call {number} was told {call.reply.hex()}")
    if any(call.began is not None for calls in told.left.values() for call in calls):
        raise AssertionError("a call has no record")


def number_of(told, call):
    """A call's number, which its reply tells where it is a handle."""
    if call.reply[4] != HANDLE:
        return 0
    number = int.from_bytes(call.reply[13:], "big")
    return number if number in told.numbers(call) else None


def has_an_order(told, tree):
    """Whether there is an order of the calls, each between its beginning and its reply, in which
    the tree answers so."""
    while True:
        sessions = told.next_calls()
        if len(sessions) != 1:
            return not sessions or any(goes_on(*copy.deepcopy((told, tree)), it) for it in sessions)
        call = told.take(sessions[0])
        number = number_of(told, call)
        if number is None or not fits(tree, call, number):
            return False


def goes_on(told, tree, session):
    """The same, with a call of this session as the next one."""
    call = told.take(session)
    number = number_of(told, call)
    return number is not None and fits(tree, call, number) and has_an_order(told, tree)


def are_answers(program, schedule, replayed):
    """The replies are those of a tree that takes the calls in the order of the records, or in an
    order that there may have been. Gives how many say that memory was wanting."""
    told = Told(schedule, replayed)
    if program.shows_records:
        follow(told, replayed.records())
    elif not has_an_order(told, Tree()):
        raise AssertionError("the replies are of no order of the calls")
    return told.refused


class Row:
    """A schedule, and runs of it on a program."""

    def __init__(self, program, schedule, growths):
        self.program = program
        self.schedule = schedule
        self.growths = growths
        self.calls = schedule.calls
        short = list(schedule.settled().lines)
        schedule.looked_at()
        self.lines = [*schedule.lines, "state"]
        told = [line for event in schedule.lines for line in ("state", event)]
        self.told = program.replay(growths, [*told, "state"])
        self.calm = program.replay(growths, self.lines)
        same(are_answers(program, schedule, self.calm), 0)
        self.own = program.own_growths(growths, self.lines)
        self.last = self.own + self.count(short)

    def count(self, lines):
        """How many growths of the engine there are in some of the events."""
        self.program.replay(self.growths, lines)
        return self.growths.seen() - self.program.own_growths(self.growths, lines)

    def refuse(self, left):
        """A run with one growth refused, and how often it was told: once, or by nothing, where what
        was asked was done in other room. Where that is refused too, it is told."""
        for count in range(1, MOST_TRIES):
            run, told = self.refuse_some(left, count)
            if told:
                return run, count
        raise AssertionError("want of memory isn't told")

    def refuse_some(self, left, count):
        """A run with so many growths refused, and how often it was told. An event that was refused
        left the state as it was before it, and where no reply tells, all goes on as ever."""
        run = self.program.replay(self.growths, self.lines, left, count)
        same(self.growths.refused(), count)
        refused = are_answers(self.program, self.schedule, run)
        for number, state in run.refused:
            if number >= 0:
                same(state, self.told.states[number])
        told = refused + len(run.refused)
        if told > 1:
            raise AssertionError(f"want of memory is told {told} times")
        if refused == 0:
            same((run.outcomes, run.states), (self.calm.outcomes, self.calm.states))
        return run, told
