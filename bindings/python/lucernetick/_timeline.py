"""The timeline of a race, as a page of HTML with an inline SVG drawing."""

from __future__ import annotations

from dataclasses import dataclass
from html import escape
from typing import Iterator, Optional, Sequence

from ._calls import Call, escaped
from ._engine import Turn

TURN = 15
"""The width of a turn in pixels."""
LINE = 72
"""The turns of one line of the drawing."""
LEFT = 92
RIGHT = 24
TOP = 26
ROW = 54
BAR = 24
GAP = 30
LETTER = 6.7
"""The width of a letter on a bar, at most."""
HUES = (212, 28, 152, 322, 52, 262, 186, 4)
"""The colours of the clients, far from each other, as degrees of the colour wheel."""

STYLE = """\
:root { color-scheme: light dark; --text: #1c2733; --soft: #66727f; --line: #d9dfe5; --page: #fff;
  --light: 91%; --edge: 46%; --dark: 24%; --wrong: #c02626; --stripe: #f6f8fa; }
@media (prefers-color-scheme: dark) { :root { --text: #e4e9ee; --soft: #97a3af; --line: #333c46;
  --page: #14191f; --light: 24%; --edge: 58%; --dark: 88%; --wrong: #ff7b72; --stripe: #1b2129; } }
body { margin: 32px auto; padding: 0 24px; width: 1196px; background: var(--page);
  color: var(--text); font: 15px/1.5 system-ui, "DejaVu Sans", sans-serif; }
h1 { margin: 0; font-size: 24px; font-weight: 650; }
p { margin: 6px 0; color: var(--soft); }
code, .code { font-family: ui-monospace, "DejaVu Sans Mono", monospace; font-size: 12.5px; }
svg { display: block; margin: 18px 0; font: 11px ui-monospace, "DejaVu Sans Mono", monospace; }
svg text { fill: var(--text); }
svg .soft { fill: var(--soft); font-size: 10px; }
svg .name { font: 600 13px system-ui, "DejaVu Sans", sans-serif; }
.grid { stroke: var(--line); }
.call rect { stroke-width: 1.2; fill: hsl(var(--hue) 72% var(--light));
  stroke: hsl(var(--hue) 55% var(--edge)); }
.call text { fill: hsl(var(--hue) 70% var(--dark)); }
.call.failed text { fill: var(--wrong); }
.turn { fill: hsl(var(--hue) 55% var(--edge)); }
.turn.blocked { fill: none; stroke: hsl(var(--hue) 55% var(--edge)); }
.point { fill: hsl(var(--hue) 65% var(--dark)); stroke: var(--page); stroke-width: 1.5; }
.point.helped { fill: var(--page); stroke: hsl(var(--hue) 65% var(--dark)); }
.help { stroke: var(--text); stroke-width: 1.4; stroke-dasharray: 3 2.5; fill: none; }
.tip { fill: var(--text); }
.legend { display: flex; flex-wrap: wrap; gap: 6px 22px; align-items: center;
  color: var(--soft); font-size: 13px; }
.legend svg { display: inline-block; margin: 0 7px 0 0; vertical-align: -6px; }
summary { margin-top: 8px; font-weight: 600; cursor: pointer; }
table { margin-top: 10px; border-collapse: collapse; width: 100%; font-size: 13px; }
th { text-align: left; font-weight: 600; color: var(--soft); }
th, td { padding: 4px 10px; border-bottom: 1px solid var(--line); vertical-align: top; }
tr:nth-child(even) td { background: var(--stripe); }
td.number { text-align: right; font-variant-numeric: tabular-nums; }
td.failed, .wrong { color: var(--wrong); }
"""
LEGEND = """\
<div class="legend" style="--hue:212">
<span><svg width="46" height="22"><g class="call"><rect x="1" y="3" width="44" height="16" rx="4"/>
</g></svg>call, from request to reply</span>
<span><svg width="16" height="22"><path class="point" d="M8 4l7 7-7 7-7-7z"/></svg>linearization
point and place in the history</span>
<span><svg width="16" height="22"><path class="point helped" d="M8 4l7 7-7 7-7-7z"/></svg>completed
by another client's call</span>
<span><svg width="30" height="22"><rect class="turn" x="1" y="9" width="12" height="4"/><rect
class="turn blocked" x="16.5" y="9.5" width="11" height="3"/></svg>turn, blocked turn</span>
<span><span class="wrong">red</span> an error reply</span>
</div>
"""


@dataclass
class Span:
    """A call of a race. Turns are numbered from 1 on."""

    call: Call
    client: int
    request: int
    """The turn that read the request."""
    point: int
    """The turn in which the call took effect."""
    reply: Optional[int] = None
    """The turn that wrote the reply."""
    helper: Optional[Call] = None
    """The other client's call that completed it."""

    @property
    def title(self) -> str:
        """One line about the call."""
        helped = f", completed by call {self.helper.number}" if self.helper else ""
        last = "no reply yet" if self.reply is None else f"replied in turn {self.reply}"
        turns = f"requested in turn {self.request}, took effect in turn {self.point}, {last}"
        return f"client {self.client} {self.call} ({turns}{helped})"

    @property
    def has_failed(self) -> bool:
        return not self.call.reply.is_ok and self.call.reply.status != 1


@dataclass
class Race:
    """What a timeline shows."""

    clients: int
    turns: Sequence[tuple[int, Turn]]
    spans: Sequence[Span]
    """In the order of the history."""
    schedule: str
    title: str
    stray: Optional[str]


def page(race: Race) -> str:
    """The whole page."""
    helped = sum(span.helper is not None for span in race.spans)
    counts = f"{count(race.clients, 'client')}, {count(len(race.spans), 'call')}, "
    counts += f"{count(len(race.turns), 'turn')}, {count(helped, 'helped call')}."
    stray = f"<p>Not reproducible: {escape(race.stray)}.</p>\n" if race.stray else ""
    return (
        '<!DOCTYPE html>\n<html lang="en">\n<head>\n<meta charset="utf-8">\n'
        f"<title>{escape(race.title)}</title>\n<style>\n{STYLE}</style>\n</head>\n<body>\n"
        f"<h1>{escape(race.title)}</h1>\n<p>{counts} Time runs from left to right, turn by turn, "
        f"and continues on the next line.</p>\n{stray}{LEGEND}"
        f"{''.join(line(race, first) for first in range(0, max(len(race.turns), 1), LINE))}"
        f"{table(race)}<p class=\"code\">schedule {escape(race.schedule)}</p>\n</body>\n</html>\n"
    )


def count(number: int, noun: str) -> str:
    return f"{number} {noun}" if number == 1 else f"{number} {noun}s"


def hue(client: int) -> str:
    return f"--hue:{HUES[(client - 1) % len(HUES)]}"


def middle(client: int) -> int:
    """The height of a client's row in a line."""
    return TOP + (client - 1) * ROW + ROW // 2


def line(race: Race, first: int) -> str:
    """The drawing of LINE turns, those after turn `first`."""
    end = min(first + LINE, len(race.turns))
    height = TOP + race.clients * ROW
    spans = [span for span in race.spans if span.request <= end and (span.reply or end) > first]
    parts = [
        f'<svg width="{LEFT + LINE * TURN + RIGHT}" height="{height}" role="img" '
        f'aria-label="turns {first + 1} to {end}">\n',
        *axis(first, end, height),
        *(row(client) for client in range(1, race.clients + 1)),
        *(turn(race, at) for at in range(first, end)),
        f'<svg x="{LEFT}" width="{LINE * TURN}" height="{height}">',
        *(bar(span, first, end) for span in spans),
        "</svg>\n",
        *(link(span, race, first) for span in spans if first < span.point <= end and span.helper),
        *(
            point(span, place, first)
            for place, span in enumerate(race.spans, 1)
            if first < span.point <= end
        ),
        "</svg>\n",
    ]
    return "".join(parts)


def left(at: int, first: int) -> int:
    """The left edge of turn `at`."""
    return LEFT + (at - 1 - first) * TURN


def axis(first: int, end: int, height: int) -> Iterator[str]:
    """The numbers of turns."""
    for at in range(first + 1, end + 1):
        if at % 10 == 0 or at == 1:
            x = left(at, first) + TURN / 2
            yield f'<path class="grid" d="M{x} 18V{height}"/>'
            yield f'<text class="soft" x="{x}" y="12" text-anchor="middle">{at}</text>\n'


def row(client: int) -> str:
    y = middle(client)
    return (
        f'<path class="grid" d="M{LEFT} {y}H{LEFT + LINE * TURN}"/>'
        f'<text class="name" x="0" y="{y + 4}">client {client}</text>\n'
    )


def turn(race: Race, at: int) -> str:
    """A mark below the row of the client that took the turn."""
    client, did = race.turns[at]
    x, y = left(at + 1, at - at % LINE), middle(client) + BAR / 2 + 3
    is_blocked = did == Turn.BLOCKED
    shape = f'x="{x + 2}" y="{y + 0.5}" width="{TURN - 4}" height="3"'
    name = "turn blocked" if is_blocked else "turn"
    words = f"turn {at + 1}: client {client}, {did.name}"
    return f'<rect class="{name}" style="{hue(client)}" {shape}><title>{words}</title></rect>\n'


def bar(span: Span, first: int, end: int) -> str:
    """The part of a call's bar in a line. Where it continues, its edge is outside of the line."""
    begin = max(span.request, first)
    last = min(span.reply or end, end + 1)
    x, width = left(begin, first) - LEFT + 1, (last - begin + 1) * TURN - 2
    y = middle(span.client) - BAR / 2
    failed = " failed" if span.has_failed else ""
    shown = min(x + width, LINE * TURN) - max(x, 0)
    text = escape(label(span, shown - 8))
    return (
        f'<g class="call{failed}" style="{hue(span.client)}"><title>{escape(span.title)}</title>'
        f'<rect x="{x}" y="{y}" width="{width}" height="{BAR}" rx="4"/>'
        f'<text x="{max(x, 0) + 5}" y="{y + BAR - 3.5}">{text}</text></g>\n'
    )


def label(span: Span, width: float) -> str:
    """As much of the request as there is room for: paths, or their last names, or none."""
    call = span.call
    name = call.kind.name.lower().replace("_", "-")
    paths = [escaped(path) for path in (call.path, call.new_path) if path is not None]
    words = paths if call.handle is None else [f"handle {call.handle}"]
    names = [path.rpartition("/")[2] or path for path in paths]
    for text in (" ".join([name, *words]), " ".join([name, *names]), name):
        if len(text) * LETTER <= width:
            return text
    return ""


def point(span: Span, place: int, first: int) -> str:
    """A linearization point."""
    x, y = left(span.point, first) + TURN / 2, middle(span.client) - BAR / 2
    name = "point helped" if span.helper else "point"
    words = f"{place} in the history: client {span.client} call {span.call.number}"
    return (
        f'<g style="{hue(span.client)}"><title>{words}</title>'
        f'<path class="{name}" d="M{x} {y - 6}l6 6-6 6-6-6z"/>'
        f'<text class="soft" x="{x + 7}" y="{y - 3}">{place}</text></g>\n'
    )


def link(span: Span, race: Race, first: int) -> str:
    """An arrow from the helper's linearization point to that of the helped call."""
    assert span.helper is not None
    helper = next(one for one in race.spans if one.call is span.helper)
    x = left(span.point, first) + TURN / 2
    begin, end = (middle(one.client) - BAR / 2 for one in (helper, span))
    down = 1 if end > begin else -1
    tip = end - down * 8
    words = f"call {helper.call.number} of client {helper.client} completes "
    words += f"call {span.call.number} of client {span.client}"
    return (
        f'<g class="helps"><title>{words}</title><path class="help" d="M{x} {begin}V{tip}"/>'
        f'<path class="tip" d="M{x} {tip + down * 2}l-4 {-down * 7}h8z"/></g>\n'
    )


def table(race: Race) -> str:
    """The history as text."""
    names = ("", "client", "request", "reply", "requested", "took effect", "replied", "helped by")
    head = "".join(f"<th>{name}</th>" for name in names)
    rows = "".join(cells(span, place) for place, span in enumerate(race.spans, 1))
    return (
        "<details>\n<summary>The history: calls in the order of their linearization points"
        f"</summary>\n<table>\n<tr>{head}</tr>\n{rows}</table>\n</details>\n"
    )


def cells(span: Span, place: int) -> str:
    failed = " failed" if span.has_failed else ""
    helper = "" if span.helper is None else f"call {span.helper.number}"
    texts = (span.call.request, str(span.call.reply))
    middle_cells = "".join(f'<td class="code{failed}">{escape(text)}</td>' for text in texts)
    turns = (span.request, span.point, "" if span.reply is None else span.reply)
    return (
        f'<tr><td class="number">{place}</td><td class="number">{span.client}</td>{middle_cells}'
        + "".join(f'<td class="number">{number}</td>' for number in turns)
        + f"<td>{helper}</td></tr>\n"
    )
