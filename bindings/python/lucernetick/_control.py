"""Controls a server from another process, by HTTP and JSON.

    GET /tree               the entries by paths; ?contents=1 with their contents as base64
    PUT /tree               {"/a": "text", "/b": {"base64": ".."}, "/c": {"link": "/a"}}
    GET, PUT /files/PATH    the contents of a file
    PUT /attributes         {"/a": {"mode": 384, "uid": 1000, "gid": 100}}, also atime, mtime, size
    GET /calls              {"calls": [..], "dropped": n}: the calls since the start or a reset;
                            ?contents=1 with the bytes of READs and WRITEs as base64
    POST /wait              {"path": "/in/f", "timeout": 10}: waits until there is a file that no
                            client writes, and returns its entry; or for a call, as by
                            {"call": {"kind": "RENAME", "path": "/in/*", "session": 1}}, that was
                            made since the start or a reset. After the timeout the status is 504
    POST /rules             the parameters of `refuse`, as {"kind": "WRITE"}: {"rule": n}; several
                            kinds or flags are a list, or joined as in "READ|WRITE";
                            or a rule with its parameters: {"rule": "disk_full", "after": 1000},
                            {"rule": "read_only", "path": "/in/**"},
                            {"rule": "enforce_permissions", "uid": 1000, "gid": 100}
    GET, DELETE /rules/N    {"refused": n}; DELETE ends the rule
    PUT /faults             the parameters of `Faults`, for sessions that open from now on
    GET, PUT /clock         {"set": n}, {"advance": n} or {"wall": true}: {"now": n}
    POST /reset             removes all files, and ends all rules and faults

An error has a status from 400 on, and {"error": "why"}.
"""

from __future__ import annotations

import base64
import contextlib
import dataclasses
import functools
import http.server
import json
import operator
import os
import socket
import socketserver
import threading
from typing import Any, Callable, Optional, Union
from urllib.parse import parse_qs, unquote, urlsplit

from . import _arguments as arguments
from ._asking import Asker, encoded, string
from ._calls import Attributes, Call, Kind
from ._clock import VirtualTime, wall_clock
from ._closing import Closes
from ._faults import Error
from ._flags import OpenFlag
from ._lines import Faults
from ._rules import Rule, Status
from ._server import Server
from ._ssh import SshServer
from ._tree import Contents, Entry, Link

MOST = 1 << 30
"""The longest body of a request."""
RULES = {
    "refuse": {"session", "kind", "path", "flags", "after", "after_bytes", "times", "status"},
    "disk_full": {"after"},
    "read_only": {"path"},
    "enforce_permissions": {"session", "uid", "gid"},
}
"""The rules by their names, with their parameters."""
ATTRIBUTES = {"size", "uid", "gid", "mode", "atime", "mtime"}


class SetClock:
    """The system's clock, until it is set."""

    def __init__(self) -> None:
        self._virtual: Optional[VirtualTime] = None

    def __call__(self) -> int:
        return wall_clock() if self._virtual is None else self._virtual()

    def change(self, words: dict[str, Any]) -> None:
        """By `set`, `advance` or `wall`."""
        if set(words) == {"wall"}:
            self._virtual = None
        elif set(words) == {"set"}:
            self._virtual = VirtualTime(words["set"])
        elif set(words) == {"advance"}:
            virtual = VirtualTime(self())
            virtual.advance(words["advance"])
            self._virtual = virtual
        else:
            raise ValueError('the clock takes {"set": n}, {"advance": n} or {"wall": true}')


class Control(Closes):
    """Listens at a port of 127.0.0.1, or at the path of a Unix socket that only this user may
    open."""

    def __init__(self, server: Server, ssh: SshServer, address: Union[int, str]) -> None:
        """Controls the server, and its clock."""
        self._begin()
        self.server = server
        self.ssh = ssh
        self.clock = SetClock()
        server.clock = self.clock
        self._given = ssh.faults
        self._rules: dict[int, Rule] = {}
        self._after = 0
        """The number of the last call before the reset."""
        self._lock = threading.Lock()
        self._path = address if isinstance(address, str) else None
        self._http: socketserver.BaseServer
        if isinstance(address, str):
            self._http = UnixServer(address, self._handler())
            self.address = address
        else:
            tcp = TcpServer(("127.0.0.1", address), self._handler())
            self._http = tcp
            self.address = f"http://127.0.0.1:{tcp.server_port}"
        self._thread = threading.Thread(
            target=self._http.serve_forever, name="lucernetick control", daemon=True
        )
        self._thread.start()

    def close(self) -> None:
        self._http.shutdown()
        self._http.server_close()
        self._thread.join()
        if self._path is not None:
            with contextlib.suppress(FileNotFoundError):
                os.unlink(self._path)

    def _handler(self) -> Callable[..., Handler]:
        return lambda *words: Handler(self, *words)

    def do(self, method: str, target: str, body: bytes) -> Union[bytes, dict[str, Any], None]:
        """The result of a request; None if there is no such thing."""
        parts = urlsplit(target)
        path, query = unquote(parts.path, errors="surrogateescape"), parse_qs(parts.query)
        if (method, path) == ("POST", "/wait"):
            return self._wait(words_of(body))
        with self._lock:
            if path.startswith("/files/"):
                return self._file(method, path[len("/files") :], body)
            if path.startswith("/rules/"):
                return self._rule(method, path[len("/rules/") :])
            does = {
                ("GET", "/tree"): lambda: self._tree("contents" in query),
                ("PUT", "/tree"): lambda: self._put_tree(words_of(body)),
                ("PUT", "/attributes"): lambda: self._set_attributes(words_of(body)),
                ("GET", "/calls"): lambda: self._calls("contents" in query),
                ("POST", "/rules"): lambda: self._refuse(words_of(body)),
                ("PUT", "/faults"): lambda: self._set_faults(words_of(body)),
                ("GET", "/clock"): lambda: {"now": self.clock()},
                ("PUT", "/clock"): lambda: self._set_clock(words_of(body)),
                ("POST", "/reset"): self._reset,
            }.get((method, path))
            return None if does is None else does()

    def _tree(self, has_contents: bool) -> dict[str, Any]:
        tree = self.server.snapshot()
        return {path: entry_words(entry, has_contents) for path, entry in tree.items()}

    def _put_tree(self, words: dict[str, Any]) -> dict[str, Any]:
        self.server.write_files({path: as_contents(path, one) for path, one in words.items()})
        return {}

    def _file(self, method: str, path: str, body: bytes) -> Union[bytes, dict[str, Any], None]:
        if method == "PUT":
            self.server.write_files({path: body})
            return {}
        entry = self.server.snapshot().get(path)
        return entry.contents if method == "GET" and entry is not None else None

    def _set_attributes(self, words: dict[str, Any]) -> dict[str, Any]:
        given = {path: as_attributes(path, one) for path, one in words.items()}
        for path, attributes in given.items():
            self.server.engine.set_attributes(path, attributes, moment=self.clock())
        return {}

    def _calls(self, has_contents: bool) -> dict[str, Any]:
        calls = [call for call in self.server.last_calls() if call.number > self._after]
        words = [call_words(call, has_contents) for call in calls]
        return {"calls": words, "dropped": self.server.dropped}

    def _wait(self, words: dict[str, Any]) -> dict[str, Any]:
        """Other requests are served meanwhile."""
        timeout = words.pop("timeout", 10.0)
        if set(words) == {"path"}:
            return entry_words(self.server.wait_for(words["path"], timeout), False)
        if set(words) != {"call"} or not isinstance(words["call"], dict):
            raise ValueError('wait takes {"path": "/a"} or {"call": {"kind": "RENAME"}}')
        given = words["call"]
        check_names("a call", given, {"kind", "path", "session"})
        replace_names(given)
        found = self.server.wait_for_call(
            **given, when=lambda call: call.number > self._after, timeout=timeout
        )
        return call_words(found, False)

    def _refuse(self, words: dict[str, Any]) -> dict[str, Any]:
        rule = words.pop("rule", "refuse")
        if rule not in RULES:
            raise ValueError(f"rule must be one of {', '.join(RULES)}, not {rule}")
        check_names("a rule" if rule == "refuse" else rule, words, RULES[rule])
        replace_names(words)
        number = len(self._rules) + 1
        self._rules[number] = getattr(self.server, rule)(**words)
        return {"rule": number}

    def _rule(self, method: str, number: str) -> Optional[dict[str, Any]]:
        rule = self._rules.get(int(number)) if number.isdigit() else None
        if rule is None or method not in ("GET", "DELETE"):
            return None
        if method == "DELETE":
            rule.end()
        return {"refused": rule.refused}

    def _set_faults(self, words: dict[str, Any]) -> dict[str, Any]:
        check_names("a fault", words, {one.name for one in dataclasses.fields(Faults)})
        self.ssh.faults = Faults(**words)
        return dataclasses.asdict(self.ssh.faults)

    def _set_clock(self, words: dict[str, Any]) -> dict[str, Any]:
        self.clock.change(words)
        return {"now": self.clock()}

    def _reset(self) -> dict[str, Any]:
        for rule in self._rules.values():
            rule.end()
        self.ssh.faults = self._given
        self.clock.change({"wall": True})
        engine = self.server.engine
        with engine._lock:
            entries = [one for one in engine.snapshot().items() if one[0] != "/"]
            with Asker(engine, 0) as asker:
                for path, entry in reversed(entries):
                    kind = Kind.RMDIR if entry.is_directory else Kind.REMOVE
                    asker.ask(kind, path, string(encoded(path)))
            self._after = max((call.number for call in engine.last_calls()), default=0)
        return {}


def words_of(body: bytes) -> dict[str, Any]:
    words = json.loads(body or b"{}")
    if not isinstance(words, dict):
        raise ValueError("the body must be a JSON object")
    return words


def check_names(what: str, words: dict[str, Any], names: set[str]) -> None:
    unknown = ", ".join(sorted(set(words) - names))
    if unknown:
        raise ValueError(f"{what} has no {unknown}")


def as_attributes(path: str, words: Any) -> Attributes:
    if not isinstance(words, dict):
        raise ValueError(f"{path} must have a JSON object")
    check_names(path, words, ATTRIBUTES)
    mode = words.pop("mode", None)
    if mode is not None:
        arguments.integer("mode", mode, 0, 2**32 - 1)
    return Attributes(permissions=mode, **words)


def replace_names(words: dict[str, Any]) -> None:
    """Puts values in the place of names."""
    if "kind" in words:
        words["kind"] = several("kind", Kind, words["kind"])
    if "status" in words:
        words["status"] = by_name("status", Status, words["status"])
    if words.get("flags"):
        flags = several("flags", OpenFlag, words["flags"])
        words["flags"] = functools.reduce(operator.or_, flags) if isinstance(flags, list) else flags


def several(name: str, names: Any, words: Any) -> Any:
    """Those of a list, or of names that are joined by `|`."""
    words = words.split("|") if isinstance(words, str) else words
    return [by_name(name, names, word) for word in words] if isinstance(words, list) else words


def by_name(name: str, names: Any, word: Any) -> Any:
    """The value of a name. A number stays."""
    if not isinstance(word, str):
        return word
    try:
        return names[word.strip().upper()]
    except KeyError:
        known = ", ".join(one.name for one in names)
        raise ValueError(f"{name} must be one of {known}, not {word}") from None


def as_contents(path: str, words: Any) -> Contents:
    if words is None:
        return None
    if isinstance(words, str):
        return words.encode()
    if isinstance(words, dict) and set(words) == {"base64"}:
        return base64.b64decode(words["base64"], validate=True)
    if isinstance(words, dict) and set(words) == {"link"}:
        return Link(words["link"])
    raise ValueError(f'{path} must be a text, {{"base64": ..}}, {{"link": ..}} or null')


def entry_words(entry: Entry, has_contents: bool) -> dict[str, Any]:
    words = {
        "type": "directory" if entry.is_directory else "file",
        "mode": entry.permissions,
        "uid": entry.uid,
        "gid": entry.gid,
        "atime": entry.atime,
        "mtime": entry.mtime,
        "size": entry.size,
        "file": entry.file,
    }
    if has_contents and entry.contents is not None:
        words["base64"] = base64.b64encode(entry.contents).decode()
    return words


def attribute_words(given: Attributes) -> dict[str, Any]:
    """Those that are given."""
    words = dataclasses.asdict(given)
    words["mode"] = words.pop("permissions")
    return {name: value for name, value in words.items() if value is not None}


def call_words(call: Call, has_contents: bool) -> dict[str, Any]:
    reply = call.reply
    words = {
        "number": call.number,
        "session": call.session,
        "moment": call.moment,
        "kind": call.kind.name,
        "path": call.path,
        "new_path": call.new_path,
        "handle": call.handle,
        "offset": call.offset,
        "length": call.length,
        "flags": call.flags,
        "attributes": attribute_words(call.attributes),
        "is_ok": reply.is_ok,
        "reply": {
            "kind": reply.kind.name,
            "status": reply.status,
            "handle": reply.handle,
            "names": list(reply.names),
            "attributes": attribute_words(reply.attributes),
        },
        "text": str(call),
    }
    if has_contents:
        words["base64"] = base64.b64encode(call.data or reply.data).decode()
    return words


class Handler(http.server.BaseHTTPRequestHandler):
    """One request."""

    protocol_version = "HTTP/1.1"

    def __init__(self, control: Control, *words: Any) -> None:
        self.control = control
        super().__init__(*words)

    def do_GET(self) -> None:
        self._do()

    do_PUT = do_POST = do_DELETE = do_GET

    def _do(self) -> None:
        try:
            given = int(self.headers["Content-Length"] or 0)
            body = self.rfile.read(arguments.integer("Content-Length", given, 0, MOST))
            found = self.control.do(self.command, self.path, body)
        except TimeoutError as fault:
            self._reply(504, {"error": str(fault)})
        except (Error, TypeError, ValueError) as fault:
            self._reply(400, {"error": str(fault)})
        else:
            self._reply(*((404, {"error": "not found"}) if found is None else (200, found)))

    def _reply(self, code: int, found: Union[bytes, dict[str, Any]]) -> None:
        kind = "octet-stream" if isinstance(found, bytes) else "json"
        body = found if isinstance(found, bytes) else json.dumps(found).encode() + b"\n"
        self.send_response(code)
        self.send_header("Content-Type", f"application/{kind}")
        self.send_header("Content-Length", str(len(body)))
        self.end_headers()
        self.wfile.write(body)

    def log_message(self, *_words: Any) -> None:
        """Nothing is logged."""

    def address_string(self) -> str:
        return "client"


class TcpServer(http.server.ThreadingHTTPServer):
    daemon_threads = True


class UnixServer(socketserver.ThreadingMixIn, socketserver.UnixStreamServer):
    daemon_threads = True

    def server_bind(self) -> None:
        """The socket's file is this user's alone."""
        mask = os.umask(0o177)
        try:
            super().server_bind()
        finally:
            os.umask(mask)
