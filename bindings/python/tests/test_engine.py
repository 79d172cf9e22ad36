"""The engine: bytes and timestamps in, bytes out."""

import threading

import pytest

from lucernetick import BlockedError, Engine, Refusal, RefusedError, Session, Turn
from packets import (
    ATTRS,
    INIT,
    LOOKS,
    MAKES,
    NO_SUCH_FILE,
    OK,
    RENAME,
    STAT,
    packet,
    replies,
    status,
    string,
    u32,
)

# The sessions that take the turns. The second session looks at /a before the first one has made it.
TURNS = (1, 2, 2, 1, 1, 2, 1, 2, 2, 2, 1)
DID = (
    Turn.WROTE,
    Turn.WROTE,
    Turn.BEGUN,
    Turn.BEGUN,
    Turn.MOVED,
    Turn.BLOCKED,
    Turn.DECIDED,
    Turn.MOVED,
    Turn.DECIDED,
    Turn.WROTE,
    Turn.WROTE,
)


def replay() -> tuple[list[Turn], bytes, bytes]:
    """What the schedule's turns did, and what its two sessions were sent."""
    with Engine() as engine:
        first, second = engine.open(), engine.open()
        first.feed(MAKES)
        second.feed(LOOKS)
        did = [(first if number == 1 else second).turn(100) for number in TURNS]
        return did, first.output(), second.output()


def test_a_schedule_gives_the_same_bytes_each_time() -> None:
    runs = [replay() for _ in range(3)]
    assert runs[0] == runs[1] == runs[2]
    did, made, looked = runs[0]
    assert tuple(did) == DID
    assert replies(made)[1] == status(7, OK, b"Success")
    # The STAT began before /a was made, and its reply has it: size 0, owner 0, mode 0o755, times
    # 100.
    directory = u32(15) + bytes(8) + u32(0) + u32(0) + u32(0o40755) + u32(100) + u32(100)
    assert replies(looked)[1] == bytes([ATTRS]) + u32(8) + directory


def begun(engine: Engine, old: bytes, new: bytes) -> Session:
    """A session with a pending RENAME, with the id 7."""
    session = engine.open()
    session.feed(packet(INIT, u32(3)) + packet(RENAME, u32(7), string(old), string(new)))
    assert [session.turn(100), session.turn(100)] == [Turn.WROTE, Turn.BEGUN]
    session.take()
    return session


def test_crossing_renames_in_rounds() -> None:
    """The first RENAME is decided in the fifth round. The other one acquires the root in the same
    round, and needs three more: its new path is missing."""
    with Engine.from_files({"/a/x": None, "/b/y": None}) as engine:
        first, second = begun(engine, b"/a/x", b"/b/y/x"), begun(engine, b"/b/y", b"/a/x/y")
        assert engine.run_all() == 8
        assert engine.run_all() == 0
        assert first.output() == second.output() == b""
        assert [second.turn(100), first.turn(100)] == [Turn.WROTE, Turn.WROTE]
        assert replies(first.take()) == [status(7, OK, b"Success")]
        assert replies(second.take()) == [status(7, NO_SUCH_FILE, b"No such file")]
        assert list(engine.snapshot()) == ["/", "/a", "/b", "/b/y", "/b/y/x"]


def test_no_rounds_without_a_call_under_way() -> None:
    with Engine() as engine:
        assert engine.run_all() == 0
        session = engine.open()
        session.feed(LOOKS)
        assert engine.run_all() == 0
        assert session.settle(100) == Turn.IDLE


def test_bytes_may_be_cut_anywhere() -> None:
    with Engine() as engine:
        whole, cut = engine.open(), engine.open()
        whole.feed(MAKES)
        whole.settle(100)
        for at in range(len(LOOKS)):
            cut.feed(LOOKS[at : at + 1])
            assert cut.settle(100) == Turn.IDLE
        assert [reply[0] for reply in replies(cut.take())][1:] == [ATTRS]


def test_output_waits_until_it_was_sent() -> None:
    with Engine() as engine:
        session = engine.open()
        session.feed(packet(INIT, u32(3)))
        session.settle(0)
        waiting = session.output()
        assert session.output() == waiting != b""
        session.sent(4)
        assert session.output() == waiting[4:]
        with pytest.raises(RefusedError) as refused:
            session.sent(len(waiting))
        assert refused.value.refusal == Refusal.NOT_SENT
        assert session.take() == waiting[4:]
        assert session.output() == b""


def test_output_above_the_first_room() -> None:
    contents = bytes(range(256)) * 1000
    with Engine.from_files({"f": contents}) as engine:
        assert engine.snapshot()["/f"].contents == contents
        session = engine.open()
        session.feed(packet(INIT, u32(3)) + packet(STAT, u32(1), string(b"/f")) * 3000)
        session.settle(0)
        assert len(replies(session.take())) == 3001


@pytest.mark.parametrize(
    ("data", "end"),
    [
        (packet(STAT, u32(1), string(b"/")), Turn.NOT_INIT),
        (packet(INIT, u32(2)), Turn.OLD_VERSION),
        (packet(INIT, u32(3)) * 2, Turn.SECOND_INIT),
        (u32(0), Turn.ZERO_LENGTH),
        (u32(262145), Turn.TOO_LONG),
        (packet(INIT), Turn.NO_ID),
    ],
)
def test_how_sessions_end(data: bytes, end: Turn) -> None:
    with Engine() as engine:
        session = engine.open()
        session.feed(data)
        assert session.settle(0) == end
        assert end.has_ended
        with pytest.raises(RefusedError) as refused:
            session.feed(b"more")
        assert refused.value.refusal == Refusal.HAS_ENDED


def test_a_session_that_is_closed_takes_no_more() -> None:
    with Engine() as engine:
        session = engine.open()
        session.close()
        with pytest.raises(RefusedError) as refused:
            session.feed(b"more")
        assert refused.value.refusal == Refusal.HAS_ENDED


def test_the_257th_session_is_refused() -> None:
    with Engine() as engine:
        sessions = [engine.open() for _ in range(256)]
        assert [session.number for session in sessions] == list(range(1, 257))
        with pytest.raises(RefusedError) as refused:
            engine.open()
        assert refused.value.refusal == Refusal.TOO_MANY_SESSIONS
        sessions[0].close()
        assert engine.open().number == 257


def test_a_session_that_never_was() -> None:
    with Engine() as engine:
        for action in (lambda s: s.feed(b"x"), lambda s: s.turn(0), Session.output, Session.close):
            with pytest.raises(RefusedError) as refused:
                action(Session(engine, 1))
            assert refused.value.refusal == Refusal.NO_SUCH_SESSION


def test_a_closed_engine_refuses() -> None:
    engine = Engine()
    session = engine.open()
    engine.close()
    engine.close()
    for action in (engine.open, session.output, engine.snapshot, engine.run_all):
        with pytest.raises(RefusedError) as refused:
            action()
        assert refused.value.refusal == Refusal.BAD_POINTER
        assert str(refused.value) == "the engine was closed"


def test_a_snapshot_while_a_call_stands_half_way() -> None:
    """It has what took effect so far."""
    with Engine.from_files({"/f": b"1"}) as engine:
        session = engine.open()
        session.feed(MAKES)
        did = [session.turn(100) for _ in range(3)]
        assert did == [Turn.WROTE, Turn.BEGUN, Turn.MOVED]
        assert list(engine.snapshot()) == ["/", "/f"]
        assert session.turn(100) == Turn.DECIDED
        assert list(engine.snapshot()) == ["/", "/a", "/f"]


def test_rounds_carry_out_a_request_that_was_blocked() -> None:
    """A request that is blocked stays pending, and blocks others, until the rounds complete it."""
    with Engine.from_files({"/a/f": b"1"}) as engine:
        held = engine.open()
        held.feed(packet(INIT, u32(3)) + packet(STAT, u32(8), string(b"/a/f")))
        did = [held.turn(100) for _ in range(4)]
        assert did == [Turn.WROTE, Turn.BEGUN, Turn.MOVED, Turn.MOVED]
        with pytest.raises(BlockedError):
            engine.write_files({"/a/g": b""})
        assert held.settle(100) == Turn.IDLE
        with pytest.raises(BlockedError):
            engine.write_files({"/b": b""})
        assert engine.run_all() > 0
        assert list(engine.snapshot()) == ["/", "/a", "/a/f", "/b"]


def test_who_wants_bytes() -> None:
    with Engine() as engine:
        session = engine.open()
        assert session.wants_bytes()
        session.feed(MAKES[:5])
        assert session.wants_bytes()
        session.feed(MAKES[5:])
        while session.turn(100) != Turn.IDLE:
            pass
        assert session.wants_bytes()
        session.feed(packet(STAT, u32(1), string(b"/a")))
        wants = [(session.wants_bytes(), session.turn(100)) for _ in range(5)]
        assert wants[-2:] == [(False, Turn.WROTE), (True, Turn.IDLE)]
        assert not any(waits for waits, _ in wants[:-1])
        session.close()
        assert not session.wants_bytes()
        assert not Session(engine, 2).wants_bytes()


def test_threads_share_an_engine() -> None:
    with Engine() as engine:
        threads = [
            threading.Thread(
                target=engine.write_files, args=({f"/{name}/{k}": b"" for k in range(50)},)
            )
            for name in "abcd"
        ]
        for thread in threads:
            thread.start()
        for thread in threads:
            thread.join()
        assert len(engine.snapshot()) == 1 + 4 + 200
