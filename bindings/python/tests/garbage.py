"""Bytes that are no SSH, or that break its rules before keys are exchanged."""

from __future__ import annotations

import random

VERSION = b"SSH-2.0-x\r\n"
# Messages at a time at which they have no meaning.
KINDS = (2, 4, 20, 21, 30, 50, 90, 98)


def packet(body: bytes, padding: int = 4) -> bytes:
    """As before keys are exchanged."""
    return (len(body) + 1 + padding).to_bytes(4, "big") + bytes([padding]) + body + bytes(padding)


def garbage(draw: random.Random) -> bytes:
    """What a connection sends."""
    noise = draw.randbytes(draw.choice((1, 10, 1000, 100_000)))
    return draw.choice(
        (
            noise,
            b"GET / HTTP/1.0\r\n\r\n",
            b"x" * 100_000,
            VERSION + noise,
            VERSION + b"\xff\xff\xff\xff" + noise,
            VERSION + bytes(4) + noise,
            VERSION + packet(bytes([draw.choice(KINDS)]) + noise[:1000]),
            VERSION + packet(bytes([20]) + bytes(61)) + packet(bytes([30]) + noise[:100]),
        )
    )
