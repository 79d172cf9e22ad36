"""A client of asyncssh, over a server of asyncssh that hands its subsystem's bytes on."""

from __future__ import annotations

import asyncio

import asyncssh

from lucernetick import Server

LIMIT = 120


class Subsystem(asyncssh.SSHServerSession):
    """An SSH session that passes its bytes on to an SFTP session, also as its streams' writer."""

    def __init__(self, server: Server) -> None:
        self.server = server
        self.reader = asyncio.StreamReader()

    def connection_made(self, channel: asyncssh.SSHServerChannel) -> None:
        self.channel = channel

    def subsystem_requested(self, subsystem: str) -> bool:
        return subsystem == "sftp"

    def session_started(self) -> None:
        self.serving = asyncio.ensure_future(self.server.serve(self.reader, self))

    def data_received(self, data: bytes, datatype: object) -> None:
        self.reader.feed_data(data)

    def eof_received(self) -> bool:
        self.reader.feed_eof()
        return True

    def write(self, data: bytes) -> None:
        self.channel.write(data)

    async def drain(self) -> None:
        pass

    def write_eof(self) -> None:
        self.channel.write_eof()

    def close(self) -> None:
        self.channel.exit(0)


def test_a_client_of_ssh(sftp_tree: Server) -> None:
    """Asyncssh is on both sides of SSH, and the client's SFTP is asyncssh's too."""

    class Anybody(asyncssh.SSHServer):
        def begin_auth(self, username: str) -> bool:
            return False

        def session_requested(self) -> asyncssh.SSHServerSession:
            return Subsystem(sftp_tree)

    async def main() -> None:
        key = asyncssh.generate_private_key("ssh-ed25519")
        words = {"server_host_keys": [key], "encoding": None}
        listening = await asyncssh.create_server(Anybody, "127.0.0.1", 0, **words)
        port = listening.sockets[0].getsockname()[1]
        async with asyncssh.connect(
            "127.0.0.1", port, known_hosts=None, username="anybody"
        ) as connection:
            async with connection.start_sftp_client() as client:
                await client.mkdir("/d")
                async with client.open("/d/f", "wb") as file:
                    await file.write(bytes(100_000))
                assert "f" in await client.listdir("/d")
        listening.close()
        await listening.wait_closed()

    asyncio.run(asyncio.wait_for(main(), LIMIT))
    assert sftp_tree.snapshot()["/d/f"].contents == bytes(100_000)
