"""Races: concurrent clients under a seeded scheduler."""

from __future__ import annotations

import contextlib
import functools
import itertools
import os
import re
import select
import socket
import threading
import warnings
from typing import TYPE_CHECKING, Callable, Iterator, NoReturn, Optional, Protocol, Sequence, Union

from . import _arguments as arguments
from ._calls import Call
from ._clock import Clock, VirtualTime, checked_clock
from ._closing import Closes
from ._engine import Engine, Session, Turn
from ._faults import Error, Refusal, RefusedError
from ._lines import PIECE, Faults
from ._reaching import Shows
from ._requests import Packets
from ._rules import Refuses
from ._server import Connection, as_engine
from ._timeline import Race, Span, page
from ._tree import Files
from ._users import User
from ._watching import Hook

if TYPE_CHECKING:
    from _typeshed import ReadableBuffer

BEGIN = 1_000_000_000
SESSIONS = 256
"""How many sessions an engine has at most."""
WORD = 2**64


def seeds(count: int) -> range:
    """The seeds 0, 1, 2 and so on: for a loop, or for `pytest.mark.parametrize("seed",
    lucernetick.seeds(100))`."""
    return range(arguments.integer("count", count))


class StrayWarning(UserWarning):
    """A race was not reproducible: its seed, or its schedule, did not decide every turn."""


class Chooser(Protocol):
    """Chooses the client that takes the next turn."""

    def choose(self, ready: Sequence[int]) -> Optional[int]:
        """One of these clients, whose numbers ascend; None if it can't choose."""


class Drawn:
    """Draws from a seed, see `Races`."""

    def __init__(self, seed: int) -> None:
        self.state = seed

    def draw(self) -> int:
        """The next number of SplitMix64."""
        self.state = (self.state + 0x9E3779B97F4A7C15) % WORD
        mixed = self.state
        mixed = (mixed ^ mixed >> 30) * 0xBF58476D1CE4E5B9 % WORD
        mixed = (mixed ^ mixed >> 27) * 0x94D049BB133111EB % WORD
        return mixed ^ mixed >> 31

    def choose(self, ready: Sequence[int]) -> int:
        return ready[self.draw() % len(ready)]


class Given:
    """Replays a schedule."""

    def __init__(self, schedule: str) -> None:
        self.rest = read_schedule(schedule)

    def choose(self, ready: Sequence[int]) -> Optional[int]:
        client = next(self.rest, None)
        return client if client in ready else None


def chooser(seed: Union[int, str]) -> Chooser:
    if isinstance(seed, str):
        return Given(seed)
    return Drawn(arguments.integer("seed", seed, 0, WORD - 1))


def read_schedule(schedule: str) -> Iterator[int]:
    """The clients of a schedule, turn by turn."""
    runs = []
    for word in schedule.split():
        run = re.fullmatch("([0-9]+)(?:x([0-9]+))?", word)
        if run is None:
            raise ValueError(f"seed: {word!r} is no part of a schedule, as 1x4 2 1x2")
        runs.append(itertools.repeat(int(run[1]), int(run[2] or 1)))
    return itertools.chain.from_iterable(runs)


def write_schedule(clients: Sequence[int]) -> str:
    """Runs of one client's turns, as `1x4 2 1x2`."""
    runs = ((client, len(list(run))) for client, run in itertools.groupby(clients))
    return " ".join(f"{client}x{count}" if count > 1 else str(client) for client, count in runs)


class RaceConnection(Connection):
    """A client's connection in a race. A thread that uses it before it has connected all clients
    would wait for itself."""

    _before_send: Callable[[], None]

    def send(self, data: ReadableBuffer, flags: int = 0) -> int:
        self._before_send()
        return super().send(data, flags)

    def sendall(self, data: ReadableBuffer, flags: int = 0) -> None:
        self._before_send()
        super().sendall(data, flags)


class Client:
    """A client, as the scheduler sees it."""

    def __init__(self, number: int, session: Session) -> None:
        self.number = number
        self.session = session
        ours, self.line = socket.socketpair()
        self.connection = RaceConnection(fileno=ours.detach())
        self.connection.session = session
        self.packets = Packets()
        self.due = 0
        """The number of its requests without a reply."""
        self.unsent = 0
        """The number of bytes that wait until it reads."""
        self.is_late = False
        """Whether it took longer than `patience`, and has sent nothing since."""
        self.has_left = False
        """Whether it sends no more, or its session has ended."""
        self.is_closed = False
        self.is_by_ssh = False
        """Whether an `SshServer` has its connection, and closes it."""
        self.thread: Optional[int] = None
        """The thread that connected it."""
        self.is_used = False
        """Whether that thread has sent on its connection."""
        self.request = 0
        """The turn that read the request of its pending call; 0 if there is none."""
        self.span: Optional[Span] = None
        """Its call without a reply that has taken effect."""

    @property
    def is_busy(self) -> bool:
        """Whether it has all its replies: it is expected to send a request, or to leave."""
        return not self.due and not self.has_left

    def read(self) -> None:
        """Reads what it sent."""
        try:
            data = self.line.recv(PIECE)
        except ConnectionError:
            data = b""
        self.is_late = False
        if data:
            self.session.feed(data)
            self.due += self.packets.count(data)
        else:
            self.has_left = True

    def send(self) -> None:
        """Sends as much as it takes now."""
        self.unsent = 0
        while not self.unsent and (waiting := self.session.output()):
            try:
                sent = self.line.send(waiting, socket.MSG_DONTWAIT)
            except BlockingIOError:
                sent = 0
            except OSError:
                sent = len(waiting)
            self.session.sent(sent)
            self.unsent = len(waiting) - sent
        self.end_line()

    def leave(self) -> None:
        """Closes its session. Its connection stays until it has read its replies."""
        self.is_closed = True
        self.session.close()
        self.end_line()

    def end_line(self) -> None:
        if self.is_closed and not self.unsent:
            self.line.close()


class Races(Closes, Shows, Refuses):
    """One race of clients on one tree, each with its own connection, usually in its own thread. It
    is reproducible: the same seed gives the same interleaving, whatever the speed of the clients.

        for seed in lucernetick.seeds(100):
            with lucernetick.Races(seed, clients=2) as races, ThreadPoolExecutor() as threads:
                list(threads.map(upload, [races.connect(), races.connect()], ["a", "b"]))
                print(seed, list(races.snapshot()))

    The scheduler takes one turn at a time, and only when each client waits for a reply or has left.
    A seeded generator chooses the client. A turn is one step of a call (`Session.turn`), so calls
    overlap and interleave.

    Clients must be deterministic: with the same replies they send the same requests. They must
    close their connections when they are done. If a client waits for something other than the
    server, the scheduler continues without it after `patience` seconds, see `stray`.

    Clients that make their own SSH connection race too: `SshServer(races, users=..)` has one user
    for each client, and each of them opens one session.

    How a turn is chosen, so that other tools can repeat it. A client is ready if one of its packets
    has no reply. Before each turn, every client that isn't ready has sent a complete packet or has
    left. A 64-bit number starts as the seed. For each turn, modulo 2^64 (SplitMix64):

        number += 0x9E3779B97F4A7C15
        mixed = number
        mixed = (mixed ^ (mixed >> 30)) * 0xBF58476D1CE4E5B9
        mixed = (mixed ^ (mixed >> 27)) * 0x94D049BB133111EB
        mixed = mixed ^ (mixed >> 31)

    The ready clients are sorted by number. The one at index `mixed` modulo their count takes the
    turn, even if it is the only one or its call is blocked.
    """

    def __init__(
        self,
        seed: Union[int, str],
        clients: int,
        *,
        engine: Optional[Engine] = None,
        clock: Optional[Clock] = None,
        patience: float = 30.0,
    ) -> None:
        """A race of this many clients, by a seed or by the `schedule` of another race. It uses the
        tree of `engine`, or a new one. Calls begin at the clock's timestamps, by default at
        1000000000 (September 2001). `patience` is the longest time in seconds to wait for a client
        while others wait for their replies."""
        self._begin()
        self._seed = seed
        self._chooser = chooser(seed)
        self._patience = arguments.seconds("patience", patience)
        begins: Clock = VirtualTime(BEGIN)
        self._clock = begins if clock is None else checked_clock(clock)
        count = arguments.integer("clients", clients, 1, SESSIONS)
        self.engine = as_engine(engine)
        self._owned = engine is None
        self._clients: list[Client] = []
        self._free = iter(self._clients)
        self._users: dict[str, Client] = {}
        """The clients that log in at an `SshServer`, and haven't yet."""
        self._turns: list[tuple[int, Turn]] = []
        self._spans: list[Span] = []
        self._news: list[Call] = []
        self._stray: Optional[str] = None
        self._moved = threading.Condition()
        """Held by the scheduler's thread unless it waits for clients. Notified when it begins to
        wait."""
        try:
            for number in range(1, count + 1):
                self._clients.append(Client(number, self.engine.open()))
        except RefusedError:
            for client in self._clients:
                client.session.close()
            self._drop()
            raise
        for client in self._clients:
            client.connection._before_send = functools.partial(self._before_send, client)
        self._hook = self.engine._hook(Hook(self.engine, None, self._news.append))
        self._thread = threading.Thread(target=self._run, name="lucernetick race", daemon=True)
        self._thread.start()

    def connect(self) -> Connection:
        """The connection of the next client: 1, 2, 3 and so on.

        Connect all clients, in a fixed order, before the first one is used: the race begins when
        each client has sent a request. Then use each connection in its own thread.
        """
        self._check()
        here = threading.get_ident()
        if any(client.is_used and client.thread == here for client in self._clients):
            self._is_alone()
        client = next(self._free, None)
        if client is None:
            raise Error(f"all {len(self._clients)} clients of the race are connected")
        client.thread = here
        return client.connection

    def write_files(self, files: Files, *, moment: int = BEGIN) -> None:
        """Creates or replaces files, see `Engine.write_files`."""
        with self._reach() as engine:
            engine.write_files(files, moment=moment)

    def _log_in(self, users: Sequence[User]) -> None:
        """From now on each of these users is a client, in this order."""
        self._check()
        clients = list(self._free)
        if len(clients) != len(self._clients):
            raise Error("clients of the race are connected: all clients of an SshServer use it")
        if len(users) != len(clients):
            why = f"the race has {len(clients)} clients, and there are {len(users)} users"
            raise ValueError(f"{why}: each user is one client")
        if any(user.root.strip("/") or user.uid for user in users):
            raise ValueError("the users of a race can't have roots or uids")
        self._users = {user.name: client for user, client in zip(users, clients)}

    def _connect(self, user: User, faults: Faults) -> Connection:
        """The connection of the client that this user is. Who comes first doesn't matter."""
        self._check()
        client = self._users.pop(user.name, None)
        if client is None:
            raise Error(f"{user.name} has opened a session: each user of a race opens one")
        if faults != Faults():
            raise ValueError("the connections of a race have no faults")
        client.is_by_ssh = True
        return client.connection

    @property
    def turns(self) -> list[tuple[int, Turn]]:
        """The turns that were taken: the client, and what the turn did."""
        with self._reach():
            return list(self._turns)

    @property
    def schedule(self) -> str:
        """The clients of the turns that were taken, as `1x4 2 1x2`: four turns of client 1, one of
        client 2, two of client 1. `Races` takes it in place of a seed, and repeats the race."""
        return write_schedule([client for client, _ in self.turns])

    @property
    def stray(self) -> Optional[str]:
        """Why the race is not reproducible; None if it is."""
        with self._reach():
            return self._stray

    def timeline(self, path: Union[str, os.PathLike[str]]) -> None:
        """Writes the history of the race as a page of HTML, which needs no other file: a row for
        each client, its calls as bars from request to reply, their linearization points, and links
        from a call to those that it completed for other clients."""
        schedule = self.schedule
        with self._reach():
            title = f"Race by seed {self._seed}"
            if isinstance(self._seed, str):
                title = "Race by a schedule"
            clients, turns = len(self._clients), list(self._turns)
            race = Race(clients, turns, list(self._spans), schedule, title, self._stray)
        with open(path, "w", encoding="utf-8") as file:
            file.write(page(race))

    def close(self) -> None:
        """Closes all connections. If the race is not reproducible, a `StrayWarning` says why."""
        if self._is_forked:
            self._drop()
            return
        for client in self._clients:
            with contextlib.suppress(OSError):
                client.connection.shutdown(socket.SHUT_RDWR)
        self._thread.join()
        self._hook.end()
        for client in self._clients:
            if not client.is_by_ssh:
                client.connection.close()
        if self._owned:
            self.engine.close()
        if self._stray:
            warnings.warn(self._stray, StrayWarning, stacklevel=3)
        self._check()

    def _drop(self) -> None:
        """Closes the descriptors alone."""
        for client in self._clients:
            client.connection.close()
            client.line.close()

    def _before_send(self, client: Client) -> None:
        """Raises an error if the thread that sends would wait for itself."""
        here = threading.get_ident()
        if client.is_used or client.thread != here:
            return
        client.is_used = True
        if self._clients[-1].thread is None and not others_run():
            self._is_alone()

    def _is_alone(self) -> NoReturn:
        count = len(self._clients)
        raise Error(
            f"this thread has used a client before it has connected all {count}: the race would "
            f"wait for it. First call connect() {count} times, then use each connection in its own "
            "thread"
        )

    @contextlib.contextmanager
    def _reach(self) -> Iterator[Engine]:
        """After all replies to what the clients sent. No turn is taken meanwhile."""
        self._check()
        with self._moved:
            self._moved.wait_for(self._is_quiet)
            self._check()
            yield self.engine

    def _is_quiet(self) -> bool:
        return not any(client.due for client in self._clients) and not polled(self._clients, 0)

    def _run(self) -> None:
        """The scheduler's thread."""
        try:
            while not all(client.is_closed and not client.unsent for client in self._clients):
                found = polled(self._clients, self._seconds())
                with self._moved:
                    self._pass_on(found)
                    self._go_on()
                    self._moved.notify_all()
        except BaseException as fault:
            self._fail(fault)

    def _fail(self, fault: BaseException) -> None:
        """The scheduler can't continue. No client must wait for it."""
        with self._moved:
            is_closed = isinstance(fault, RefusedError) and fault.refusal == Refusal.BAD_POINTER
            if not is_closed:
                self._fault = fault
            for client in self._clients:
                client.due = client.unsent = 0
                client.has_left = client.is_closed = True
                client.line.close()
            self._moved.notify_all()

    def _seconds(self) -> Optional[float]:
        """How long to wait for clients. If others wait for replies: not for ever, and not for those
        that are late."""
        if not any(client.due for client in self._clients):
            return None
        return self._patience if self._waits() else 0

    def _waits(self) -> bool:
        return any(client.is_busy and not client.is_late for client in self._clients)

    def _pass_on(self, found: list[tuple[Client, int]]) -> None:
        for client, events in found:
            if events & select.POLLOUT:
                client.send()
            if client.is_busy and events & ~select.POLLOUT:
                client.read()
        if not found and self._waits():
            self._pass_over()

    def _pass_over(self) -> None:
        late = [client for client in self._clients if client.is_busy and not client.is_late]
        for client in late:
            client.is_late = True
        names = " and ".join(str(client.number) for client in late)
        self._strays(f"client {names} neither sent nor left for {self._patience:g} seconds")

    def _strays(self, why: str) -> None:
        if self._stray is None:
            self._stray = f"before turn {len(self._turns) + 1}: {why}"

    def _go_on(self) -> None:
        """Takes turns until a client has all its replies."""
        while not self._waits():
            for client in self._clients:
                if client.has_left and not client.is_closed:
                    client.leave()
            ready = [client.number for client in self._clients if client.due]
            if not ready:
                return
            self._take_turn(self._clients[self._choose(ready) - 1])
            if any(client.is_busy for client in self._clients):
                return

    def _choose(self, ready: Sequence[int]) -> int:
        chosen = self._chooser.choose(ready)
        if chosen is None:
            self._strays("the schedule has no turn of a client that is ready")
            return ready[0]
        return chosen

    def _take_turn(self, client: Client) -> None:
        self._news.clear()
        turn = client.session.turn(arguments.timestamp("the clock's result", self._clock()))
        self._turns.append((client.number, turn))
        self._draw(client, turn)
        if turn == Turn.WROTE:
            client.due -= 1
            if not client.unsent:
                client.send()
        if turn.has_ended:
            client.due = 0
            client.has_left = True

    def _draw(self, client: Client, turn: Turn) -> None:
        """Adds what the turn did to the timeline. Records of other clients' calls precede the
        record of the call that completed them."""
        now = len(self._turns)
        if turn == Turn.BEGUN:
            client.request = now
        by = {one.session.number: one for one in self._clients}
        own = next((call for call in self._news if call.session == client.session.number), None)
        for call in self._news:
            one = by.get(call.session)
            if one is not None:
                helper = own if one is not client else None
                one.span = Span(call, one.number, one.request, now, helper=helper)
                self._spans.append(one.span)
        if turn == Turn.WROTE and client.span is not None:
            client.span.reply = now
            client.span = None


def others_run() -> bool:
    """Whether there may be another thread that connects a client."""
    here = threading.current_thread()
    return any(
        thread is not here and not thread.name.startswith("lucernetick ")
        for thread in threading.enumerate()
    )


def polled(clients: Sequence[Client], seconds: Optional[float]) -> list[tuple[Client, int]]:
    """The clients that have sent or can receive bytes, with the events of their connections.
    Requests are read of clients that have all their replies."""
    poll = select.poll()
    lines = {}
    for client in clients:
        events = (select.POLLIN if client.is_busy else 0) | (select.POLLOUT if client.unsent else 0)
        if events:
            poll.register(client.line, events)
            lines[client.line.fileno()] = client
    found = poll.poll(None if seconds is None else seconds * 1000)
    return [(lines[line], events) for line, events in found]
