"""The timeline of a race, as a browser reads it."""

from __future__ import annotations

import shutil
import subprocess
from concurrent.futures import ThreadPoolExecutor
from html.parser import HTMLParser
from pathlib import Path
from typing import Optional

import paramiko
import pytest

from lucernetick import Connection, Engine, Kind, Races, Turn

from packets import INIT, RENAME, STAT, packet, string, u32

LIMIT = 600
CHROMIUM = shutil.which("chromium") or shutil.which("chromium-browser")


class Page(HTMLParser):
    """Counts the parts of a page, and collects the titles in them."""

    def __init__(self, text: str) -> None:
        super().__init__()
        self.classes: dict[str, int] = {}
        self.titles: list[str] = []
        self.text = ""
        self.tags: list[str] = []
        self.feed(text)

    def handle_starttag(self, tag: str, attrs: list[tuple[str, Optional[str]]]) -> None:
        self.tags.append(tag)
        for name in (dict(attrs).get("class") or "").split():
            self.classes[name] = self.classes.get(name, 0) + 1
        if tag == "title":
            self.titles.append("")

    def handle_data(self, data: str) -> None:
        if self.tags and self.tags[-1] == "title" and not data.isspace():
            self.titles[-1] += data
        self.text += data

    def about(self, text: str) -> list[str]:
        return [title for title in self.titles if text in title]


def in_a_browser(path: Path, folder: Path) -> Page:
    """The page as Chromium has read it."""
    assert CHROMIUM is not None, "these tests need Debian's chromium"
    words = [CHROMIUM, "--headless", "--no-sandbox", "--disable-gpu", "--dump-dom"]
    profile = f"--user-data-dir={folder / 'profile'}"
    ran = subprocess.run(
        [*words, profile, f"file://{path}"], capture_output=True, text=True, timeout=LIMIT
    )
    assert ran.returncode == 0 and "<svg" in ran.stdout, ran.stderr
    return Page(ran.stdout)


def upload(connection: Connection, name: str) -> None:
    with paramiko.SFTPClient(connection) as client:
        for number in range(20):
            try:
                client.mkdir(f"/{number}")
            except OSError:
                pass
            with client.open(f"/{number}/{name}", "w") as file:
                file.write(b"1")


def test_a_race_of_many_calls(tmp_path: Path) -> None:
    """Each call has a bar with its line, its linearization point with its place, and a row in the
    table; each turn has a mark."""
    with Races(7, clients=2) as races, ThreadPoolExecutor() as threads:
        list(threads.map(upload, [races.connect(), races.connect()], "ab", timeout=LIMIT))
        calls, turns = races.calls(), races.turns
        races.timeline(tmp_path / "race.html")
    assert len(calls) > 100
    page = in_a_browser(tmp_path / "race.html", tmp_path)
    bars = page.about("requested in turn ")
    for place, call in enumerate(calls, 1):
        [one] = {title for title in bars if str(call) + " (" in title}
        assert one.startswith(f"client {call.session} session {call.session} ")
        point = f"{place} in the history: client {call.session} call {call.number}"
        assert page.titles.count(point) == 1
    marks = [title for title in page.titles if title.startswith("turn ")]
    assert marks == [
        f"turn {at}: client {client}, {did.name}" for at, (client, did) in enumerate(turns, 1)
    ]
    assert page.tags.count("tr") == 1 + len(calls)
    assert f"2 clients, {len(calls)} calls, {len(turns)} turns" in page.text
    assert "script" not in page.tags and "link" not in page.tags and "img" not in page.tags


def test_turns_of_a_bar(tmp_path: Path) -> None:
    """They are those in which the request was read, the call took effect and the reply was
    written."""
    with Races("1 2x2 1x2 2 1 2x3 1", clients=2) as races:
        makes, looks = races.connect(), races.connect()
        makes.sendall(packet(INIT, u32(3)) + packet(14, u32(7), string(b"/a"), u32(0)))
        looks.sendall(packet(INIT, u32(3)) + packet(STAT, u32(8), string(b"/a")))
        makes.close()
        looks.close()
        assert [did for _, did in races.turns].index(Turn.DECIDED) == 6
        races.timeline(tmp_path / "race.html")
    page = in_a_browser(tmp_path / "race.html", tmp_path)
    [made], [looked] = page.about('mkdir "/a"'), page.about('stat "/a"')
    assert "(requested in turn 4, took effect in turn 7, replied in turn 11)" in made
    assert "(requested in turn 3, took effect in turn 9, replied in turn 10)" in looked
    assert page.classes["blocked"] == 2  # One is the legend's.


def test_a_helped_call(tmp_path: Path) -> None:
    """A STAT is on its way below /a when /a is renamed. The rename completes it just before, in its
    own turn, and the page links the two."""
    with Engine.from_files({"/a/f": b"1"}) as engine:
        with Races("1x4 2x9", clients=2, engine=engine) as races:
            looks, moves = races.connect(), races.connect()
            looks.sendall(packet(INIT, u32(3)) + packet(STAT, u32(8), string(b"/a/f")))
            renames = packet(RENAME, u32(7), string(b"/a"), string(b"/b"))
            moves.sendall(packet(INIT, u32(3)) + renames)
            looks.close()
            moves.close()
            sessions = {looks.session.number, moves.session.number}
            calls = [call for call in races.calls() if call.session in sessions]
            turns = races.turns
            races.timeline(tmp_path / "race.html")
            races._stray = None
    assert [call.kind for call in calls] == [Kind.STAT, Kind.RENAME]
    assert all(call.reply.is_ok for call in calls)
    decided = 1 + next(at for at, turn in enumerate(turns) if turn == (2, Turn.DECIDED))
    page = in_a_browser(tmp_path / "race.html", tmp_path)
    [looked] = page.about('stat "/a/f"')
    assert f"took effect in turn {decided}," in looked
    assert f"completed by call {calls[1].number})" in looked
    assert page.about(" completes ") == [
        f"call {calls[1].number} of client 2 completes call {calls[0].number} of client 1"
    ]
    assert page.classes["helps"] == 1


def test_a_race_without_calls(tmp_path: Path) -> None:
    with Races(1, clients=1) as races:
        races.connect().close()
        races.timeline(tmp_path / "race.html")
    page = in_a_browser(tmp_path / "race.html", tmp_path)
    assert "1 client, 0 calls, 0 turns, 0 helped calls." in page.text


@pytest.mark.parametrize("name", ["<b>&'\"", "\u00e4"])
def test_names_are_escaped(tmp_path: Path, name: str) -> None:
    with Races(1, clients=1) as races:
        line = races.connect()
        line.sendall(packet(INIT, u32(3)) + packet(STAT, u32(8), string(f"/{name}".encode())))
        line.close()
        [call] = races.calls()
        races.timeline(str(tmp_path / "race.html"))
    page = in_a_browser(tmp_path / "race.html", tmp_path)
    assert page.about(str(call)) and "b" not in page.tags
