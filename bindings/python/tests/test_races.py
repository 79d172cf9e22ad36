"""Races of real clients, by a seed."""

from __future__ import annotations

import collections
import functools
import gc
import os
import random
import socket
import threading
import time
from concurrent.futures import ThreadPoolExecutor
from typing import Callable, Union

import paramiko
import pytest

from lucernetick import Connection, Engine, Error, Races, RefusedError, StrayWarning, Turn, seeds
from lucernetick._races import Drawn

from packets import (
    ATTRS,
    CLOSE,
    HANDLE,
    INIT,
    LOOKS,
    MAKES,
    MKDIR,
    OK,
    OPEN,
    RENAME,
    WRITE,
    packet,
    replies,
    status,
    string,
    u32,
)

LIMIT = 120
RATE = 50
"""How many races of two clients a second there are at least."""
Did = tuple[object, ...]
Work = Callable[[Connection, str], Did]


def upload(connection: Connection, name: str, pause: Callable[[], None] = lambda: None) -> Did:
    """What races: it makes a directory, writes a file into it, and renames it away. Returns
    how far it got."""
    with paramiko.SFTPClient(connection) as client:
        try:
            client.mkdir("/out")
            did = ["made"]
        except OSError:
            did = ["found"]
        pause()
        try:
            with client.open(f"/out/{name}", "w") as file:
                file.write(name.encode())
            did.append("wrote")
            pause()
            client.rename("/out", f"/done-{name}")
            did.append("renamed")
        except OSError:
            did.append("lost")
    return tuple(did)


class Client:
    """A client that spells its packets, and keeps the replies."""

    def __init__(self, line: Connection) -> None:
        self.line = line
        self.told: list[bytes] = []
        line.settimeout(LIMIT)
        line.sendall(packet(INIT, u32(3)))
        self.reply()

    def ask(self, kind: int, *fields: bytes) -> bytes:
        self.line.sendall(packet(kind, u32(7), *fields))
        return self.reply()

    def reply(self) -> bytes:
        length = self.line.recv(4, socket.MSG_WAITALL)
        self.told.append(self.line.recv(int.from_bytes(length, "big"), socket.MSG_WAITALL))
        return self.told[-1]


def spell(connection: Connection, name: str) -> Did:
    """As `upload`, by packets, which is faster than a real client. Returns all replies."""
    with connection:
        client, path = Client(connection), f"/out/{name}".encode()
        client.ask(MKDIR, string(b"/out"), u32(0))
        opened = client.ask(OPEN, string(path), u32(0x1A), u32(0))
        if opened[0] == HANDLE:
            client.ask(WRITE, opened[5:], bytes(8), string(name.encode()))
            client.ask(CLOSE, opened[5:])
            client.ask(RENAME, string(b"/out"), string(f"/done-{name}".encode()))
    return tuple(client.told)


def hesitate() -> None:
    time.sleep(random.random() / 100)


def race(
    seed: Union[int, str], work: Work = upload
) -> tuple[list[Did], list[tuple[int, Turn]], list[str]]:
    """What two clients did, the turns, and the tree that they left."""
    with Races(seed, clients=2) as races, ThreadPoolExecutor() as threads:
        did = list(threads.map(work, [races.connect(), races.connect()], ["a", "b"], timeout=LIMIT))
        return did, races.turns, list(races.snapshot())


def send_all(connection: Connection, data: bytes) -> None:
    """Sends this and nothing more."""
    connection.sendall(data)
    connection.shutdown(socket.SHUT_WR)


def listed(connection: Connection) -> list[str]:
    with paramiko.SFTPClient(connection) as client:
        return client.listdir("/in")


def test_the_generator() -> None:
    """The first numbers of SplitMix64, as published with it."""
    known = [
        6457827717110365317,
        3203168211198807973,
        9817491932198370423,
        4593380528125082431,
        16408922859458223821,
    ]
    drawn = Drawn(1234567)
    assert [drawn.draw() for _ in known] == known
    assert Drawn(0).draw() == Drawn(2**64).draw() == 0xE220A8397B1DCDAF


def test_whose_turn_is_drawn() -> None:
    """By these numbers: all five are odd, and their remainders by 3 are 0, 1, 0, 1 and 2."""
    two, three = Drawn(1234567), Drawn(1234567)
    assert [two.choose([1, 2]) for _ in range(5)] == [2, 2, 2, 2, 2]
    assert [three.choose([2, 3, 5]) for _ in range(5)] == [2, 3, 2, 3, 5]


def test_1000_seeds_twice() -> None:
    """The same replies, turns and trees each time; and of the seeds most differ."""
    first = [race(seed, spell) for seed in seeds(1000)]
    for seed, found in enumerate(first):
        assert race(seed, spell) == found
    assert len({tuple(turns) for _, turns, _ in first}) > 500


def test_all_outcomes_come_up() -> None:
    """Either client makes the directory, and either one renames it away; and of some seeds it is
    looked again, with a real client, whether they are the same each time."""

    def who(did: list[Did], step: str) -> str:
        return "".join(name for name, steps in zip("ab", did) if step in steps)

    raced = [race(seed) for seed in seeds(200)]
    outcomes = collections.Counter((who(did, "made"), who(did, "renamed")) for did, _, _ in raced)
    print(outcomes)
    assert {("a", "a"), ("a", "b"), ("b", "a"), ("b", "b")} <= set(outcomes)
    assert [race(seed) for seed in seeds(20)] == raced[:20]


def test_50_races_a_second() -> None:
    """By CPU time, since the machine may be busy; the best of some times, since others share its
    caches."""

    def rate(count: int) -> float:
        begin = time.process_time()
        for seed in seeds(count):
            race(seed)
        return count / (time.process_time() - begin)

    rates = [rate(10) for _ in range(10)]
    print([round(found) for found in rates])
    assert max(rates) >= RATE


def test_the_turns_of_a_seed() -> None:
    """The first five numbers of this seed are odd: so client 2 has five turns, by which it was sent
    VERSION, and its MKDIR was read, took the root, was decided and was answered. Client 1 continues
    after it has left. (The other languages' tests have the same race.)"""
    with Races(1234567, clients=2) as races:
        looks, makes = races.connect(), races.connect()
        looks.sendall(LOOKS)
        makes.sendall(MAKES)
        makes.close()
        assert races.schedule == "2x5 1x5"
        assert replies(looks.recv(1000))[1][0] == ATTRS
        looks.close()
        assert races.stray is None


def test_how_fast_clients_are_is_no_matter() -> None:
    for seed in seeds(10):
        assert race(seed, functools.partial(upload, pause=hesitate)) == race(seed)


@pytest.mark.parametrize("seed", seeds(3))
def test_a_schedule_in_the_place_of_a_seed(seed: int) -> None:
    with Races(seed, clients=2) as races, ThreadPoolExecutor() as threads:
        list(threads.map(upload, [races.connect(), races.connect()], "ab", timeout=LIMIT))
        schedule, turns = races.schedule, races.turns
    did, taken, _ = race(schedule)
    assert taken == turns


def test_turns_by_a_schedule_written_down() -> None:
    """The second client's STAT begins before the directory exists, and its reply has it."""
    with Races("1 2x2 1x2 2 1 2x3 1", clients=2, clock=lambda: 100) as races:
        makes, looks = races.connect(), races.connect()
        send_all(makes, MAKES)
        send_all(looks, LOOKS)
        assert races.turns == [
            (1, Turn.WROTE),
            (2, Turn.WROTE),
            (2, Turn.BEGUN),
            (1, Turn.BEGUN),
            (1, Turn.MOVED),
            (2, Turn.BLOCKED),
            (1, Turn.DECIDED),
            (2, Turn.MOVED),
            (2, Turn.DECIDED),
            (2, Turn.WROTE),
            (1, Turn.WROTE),
        ]
        assert races.schedule == "1 2x2 1x2 2 1 2x3 1"
        assert races.stray is None
        assert replies(makes.recv(1000))[1] == status(7, OK, b"Success")
        assert replies(looks.recv(1000))[1][0] == 105


def test_a_schedule_that_does_not_fit() -> None:
    """The first client that is ready takes the turn, and a warning says so."""
    with pytest.warns(
        StrayWarning, match="before turn 3: the schedule has no turn of a client that is ready"
    ):
        with Races("1 2", clients=2) as races:
            for line in (races.connect(), races.connect()):
                send_all(line, MAKES)
            assert races.stray is not None
            assert races.schedule.startswith("1 2 1x")
            assert list(races.snapshot()) == ["/", "/a"]


@pytest.mark.parametrize("schedule", ["x", "1x", "1xx2", "a", "1,2"])
def test_what_is_no_schedule(schedule: str) -> None:
    with pytest.raises(ValueError):
        Races(schedule, clients=2)


def test_bytes_may_be_cut_anywhere() -> None:
    def send(connection: Connection, parts: list[bytes]) -> bytes:
        for part in parts:
            connection.sendall(part)
            time.sleep(0.001)
        connection.shutdown(socket.SHUT_WR)
        with connection.makefile("rb") as told:
            return told.read()

    def by(parts: Callable[[bytes], list[bytes]]) -> tuple[list[bytes], str]:
        renames = packet(INIT, u32(3)) + packet(RENAME, u32(7), string(b"/a"), string(b"/b"))
        with Races(5, clients=2) as races, ThreadPoolExecutor() as threads:
            lines = [races.connect(), races.connect()]
            return list(threads.map(send, lines, map(parts, (MAKES, renames)))), races.schedule

    assert by(lambda data: [data]) == by(
        lambda data: [data[at : at + 1] for at in range(len(data))]
    )


def test_a_client_that_leaves_before_its_replies() -> None:
    """All that it sent is carried out first."""
    for seed in seeds(20):
        with Races(seed, clients=2) as races:
            makes, looks = races.connect(), races.connect()
            makes.sendall(MAKES)
            makes.close()
            send_all(looks, LOOKS)
            assert [call.session for call in races.calls()] in ([1, 2], [2, 1])
            assert list(races.snapshot()) == ["/", "/a"]
            assert races.stray is None


def test_a_client_may_send_much_before_it_reads() -> None:
    stats = LOOKS[:9] + LOOKS[9:] * 20_000
    with Races(1, clients=1) as races:
        line = races.connect()
        line.settimeout(LIMIT)
        send_all(line, stats)
        time.sleep(0.1)
        with line.makefile("rb") as told:
            assert len(replies(told.read())) == 20_001


def test_a_session_that_ends() -> None:
    """By a packet of length 0, or by the length of a packet that is too long."""
    for data in (bytes(4), b"\xff" * 4):
        with Races(1, clients=2) as races:
            fails, looks = races.connect(), races.connect()
            for line in (fails, looks):
                line.settimeout(LIMIT)
            fails.sendall(MAKES[:9] + data)
            send_all(looks, LOOKS)
            assert fails.recv(1000)[:5] == b"\0\0\0\x95\2"
            assert fails.recv(1) == b""
            assert races.stray is None


def test_a_client_that_waits_for_another_one() -> None:
    """It is passed over, and the race says that it isn't the seed's."""
    with pytest.warns(StrayWarning, match="client 2 neither sent nor left for 0.2 seconds"):
        with Races(1, clients=2, patience=0.2) as races:
            first, second = races.connect(), races.connect()
            send_all(first, MAKES)
            with first.makefile("rb") as told:
                assert len(replies(told.read())) == 2
            send_all(second, LOOKS)
            assert races.stray is not None
            assert {client for client, _ in races.turns} == {1, 2}


def test_a_client_that_never_connects_is_passed_over() -> None:
    with pytest.warns(StrayWarning, match="before turn 1: client 1 and 3"):
        with Races(1, clients=3, patience=0.2) as races:
            races.connect()
            line = races.connect()
            sends = threading.Thread(target=line.sendall, args=(MAKES,))
            sends.start()
            sends.join()
            assert list(races.snapshot()) == ["/", "/a"]


@pytest.mark.filterwarnings("error")
def test_a_race_that_is_rejected_leaves_nothing_open(recwarn: pytest.WarningsRecorder) -> None:
    before = os.listdir("/proc/self/fd")
    with pytest.raises(ValueError, match="clients must be from 1 to 256, not 1000"):
        Races(1, 1000)
    gc.collect()
    assert len(os.listdir("/proc/self/fd")) == len(before) and not recwarn.list


def test_more_clients_than_were_said() -> None:
    with Races(1, clients=1) as races:
        races.connect()
        with pytest.raises(Error):
            races.connect()


def test_a_tree_and_a_clock_of_the_test_s() -> None:
    with Engine.from_files({"/in/f": b"1"}, moment=3) as engine:
        with Races(
            7, clients=2, engine=engine, clock=lambda: 5
        ) as races, ThreadPoolExecutor() as threads:
            assert list(threads.map(listed, [races.connect(), races.connect()])) == [["f"], ["f"]]
            assert {call.moment for call in races.calls()} == {3, 5}
        assert engine.snapshot()["/in/f"].mtime == 3


def test_where_it_is_left_its_threads_end() -> None:
    before = set(threading.enumerate())
    with Races(1, clients=2) as races:
        line, _ = races.connect(), races.connect()
        line.sendall(MAKES)
    assert set(threading.enumerate()) <= before
    with pytest.raises(OSError):
        line.recv(1)


def test_no_room_for_all_clients() -> None:
    """Those that found room leave none of their sessions open."""
    with Engine() as engine:
        opened = [engine.open() for _ in range(250)]
        with pytest.raises(RefusedError, match="256 sessions are open"):
            Races(1, clients=7, engine=engine)
        assert len([engine.open() for _ in range(6)]) == 6
        assert opened[0].number == 1
