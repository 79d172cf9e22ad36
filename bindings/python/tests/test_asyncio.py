"""A server's sessions over asyncio's streams."""

from __future__ import annotations

import asyncio
from pathlib import Path

import asyncssh

from lucernetick import Kind, Server, SshServer

from packets import LOOKS, MAKES, VERSION

LIMIT = 120


def test_sessions_at_a_socket_of_asyncio(sftp_tree: Server, tmp_path: Path) -> None:
    async def session(data: bytes, count: int) -> bytes:
        reader, writer = await asyncio.open_unix_connection(tmp_path / "socket")
        writer.write(data)
        reply = await reader.readexactly(count)
        writer.write_eof()
        assert await reader.read() == b""
        writer.close()
        return reply

    async def main() -> None:
        listening = await asyncio.start_unix_server(sftp_tree.serve, tmp_path / "socket")
        async with listening:
            await session(MAKES, VERSION + 28)
            replies = await asyncio.gather(*(session(LOOKS, VERSION + 41) for _ in range(50)))
        assert {reply[VERSION + 4] for reply in replies} == {105}

    asyncio.run(asyncio.wait_for(main(), LIMIT))
    assert [call.kind for call in sftp_tree.calls()] == [Kind.MKDIR] + [Kind.STAT] * 50


def test_servers_by_async_with() -> None:
    """While they close, the event loop runs, as their client needs."""

    async def main() -> None:
        async with Server() as server, SshServer(server) as ssh:
            words = {"known_hosts": ssh.known_hosts, "client_keys": [ssh.client_key]}
            client = await asyncssh.connect(ssh.host, ssh.port, username=ssh.user, **words)
            files = await client.start_sftp_client()
            await files.mkdir("/d")
            assert list(server.snapshot()) == ["/", "/d"]
        await client.wait_closed()

    asyncio.run(asyncio.wait_for(main(), LIMIT))
