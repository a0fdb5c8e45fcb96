#!/usr/bin/env python3
"""Speaks HTTP and WebSocket to the program as a server: each request and its answer, limits, requests of elsewhere, edits by
requests beside a session, and kill -9 of a server with a store. The last line counts the rows.
    tests/http.py [--quick] PROGRAM
"""
import base64
import hashlib
import json
import os
import random
import re
import signal
import socket
import struct
import subprocess
import sys
import tempfile
import threading
import time
import traceback

GUID = "258EAFA5-E914-47DA-95CA-C5AB0DC85B11"
KEY = base64.b64encode(bytes(range(16))).decode()
TEXT, BINARY, CLOSE, PING, PONG = 1, 2, 8, 9, 10
passed = 0


def row(what, got, wanted):
    """A row is as it has to be."""
    global passed
    if got != wanted:
        raise AssertionError(f"{what}: {got!r}, and not {wanted!r}")
    passed += 1
    print(f"http: {what} ... ok", flush=True)


class Server:
    """The program as a server, by HTTP and by lines."""

    running = []

    def __init__(self, program, *words, host="127.0.0.1"):
        ask = [program, "serve", "--listen", "127.0.0.1:0", "--http", f"{host}:0", "--forever", *words]
        self.process = subprocess.Popen(ask, stdin=subprocess.PIPE, stderr=subprocess.PIPE, text=True, bufsize=1)
        Server.running.append(self.process)
        self.host, self.said, self.lines, self.port = host, [], None, None
        while self.port is None:
            line = self.process.stderr.readline()
            if not line:
                raise AssertionError(f"it does not listen: {self.said}")
            self.said.append(line)
            if found := re.fullmatch(r"dsheet: listening on 127\.0\.0\.1:(\d+)\n", line):
                self.lines = int(found[1])
            if found := re.fullmatch(rf"dsheet: HTTP on {re.escape(host)}:(\d+)\n", line):
                self.port = int(found[1])
        threading.Thread(target=self.listen, daemon=True).start()

    def listen(self):
        """Keeps what the log says."""
        for line in self.process.stderr:
            self.said.append(line)

    def stop(self):
        """Asks it to stop: its status."""
        self.process.stdin.write("stop\n")
        self.process.stdin.close()
        return self.process.wait(timeout=60)

    def kill(self):
        self.process.send_signal(signal.SIGKILL)
        self.process.wait(timeout=60)

    def connect(self):
        return socket.create_connection((self.host, self.port), timeout=60)


class Client:
    """A connection of HTTP/1.1 that is kept."""

    def __init__(self, server, host=None):
        self.socket = server.connect()
        self.host = host or f"{server.host}:{server.port}"
        self.rest = b""

    def close(self):
        self.socket.close()

    def read(self, wanted):
        """At least this number of bytes, where they come."""
        while len(self.rest) < wanted:
            more = self.socket.recv(65536)
            if not more:
                break
            self.rest += more
        took, self.rest = self.rest[:wanted], self.rest[wanted:]
        return took

    def head(self):
        """The status and the fields of an answer."""
        while b"\r\n\r\n" not in self.rest:
            more = self.socket.recv(65536)
            if not more:
                raise AssertionError(f"no answer, but {self.rest!r}")
            self.rest += more
        head, self.rest = self.rest.split(b"\r\n\r\n", 1)
        first, *fields = head.decode().split("\r\n")
        return int(first.split()[1]), dict(field.split(": ", 1) for field in fields)

    def answer(self, method="GET"):
        """An answer: its status, its fields and its body."""
        status, fields = self.head()
        while status == 100:
            status, fields = self.head()
        length = 0 if method == "HEAD" or status == 101 else int(fields.get("content-length", 0))
        return status, fields, self.read(length).decode()

    def ask(self, method, path, body=None, **fields):
        """The answer to a request."""
        lines = [f"{method} {path} HTTP/1.1", f"host: {self.host}"]
        lines += [f"{name.replace('_', '-')}: {value}" for name, value in fields.items()]
        if body is not None:
            lines.append(f"content-length: {len(body.encode('utf-8', 'surrogateescape'))}")
        self.socket.sendall(("\r\n".join(lines) + "\r\n\r\n" + (body or "")).encode("utf-8", "surrogateescape"))
        return self.answer(method)

    def edit(self, cell, text):
        """The status and the body of an edit."""
        status, _, body = self.ask("POST", "/edits", json.dumps({"cell": cell, "text": text}))
        return status, json.loads(body)

    def sheet(self):
        """The rows of the sheet."""
        status, _, body = self.ask("GET", "/sheet")
        return json.loads(body)["rows"] if status == 200 else None

    def has_ended(self):
        """Whether the server has closed the connection, with nothing more said."""
        try:
            return self.rest == b"" and self.socket.recv(1) == b""
        except ConnectionResetError:
            return True


class WebSocket:
    """A session over a WebSocket, by hand."""

    def __init__(self, server, first=None, **fields):
        self.client = Client(server)
        ask = {"connection": "keep-alive, Upgrade", "upgrade": "websocket", "sec-websocket-version": "13", "sec-websocket-key": KEY}
        ask |= {name.replace("_", "-"): value for name, value in fields.items()}
        lines = ["GET /session HTTP/1.1", f"host: {self.client.host}", *(f"{name}: {value}" for name, value in ask.items())]
        head = ("\r\n".join(lines) + "\r\n\r\n").encode()
        self.client.socket.sendall(head + (self.frame(TEXT, first) if first else b""))
        self.status, self.fields, self.body = self.client.answer()

    @staticmethod
    def frame(kind, text, last=True, masked=True):
        """The bytes of a frame."""
        data = text.encode() if isinstance(text, str) else text
        mask = random.randbytes(4) if masked else b""
        if len(data) < 126:
            size = bytes([len(data) | masked << 7])
        elif len(data) < 65536:
            size = struct.pack(">BH", 126 | masked << 7, len(data))
        else:
            size = struct.pack(">BQ", 127 | masked << 7, len(data))
        coded = bytes(byte ^ mask[at % 4] for at, byte in enumerate(data)) if masked else data
        return bytes([kind | last << 7]) + size + mask + coded

    def send(self, kind, text, **how):
        self.client.socket.sendall(self.frame(kind, text, **how))

    def hear(self):
        """The kind and the data of the next frame."""
        first, second = self.client.read(2)
        size = second & 127
        if size == 126:
            size = struct.unpack(">H", self.client.read(2))[0]
        elif size == 127:
            size = struct.unpack(">Q", self.client.read(8))[0]
        data = self.client.read(size)
        return first & 15, data if first & 15 in (CLOSE, PONG) else data.decode()

    def ask(self, **line):
        """What a line is answered."""
        self.send(TEXT, json.dumps(line))
        kind, text = self.hear()
        assert kind == TEXT, (kind, text)
        return json.loads(text)

    def close_code(self):
        """The code with which the server closes."""
        kind, data = self.hear()
        return struct.unpack(">H", data[:2])[0] if kind == CLOSE else (kind, data)


def requests(server):
    """Each request, on one connection."""
    client = Client(server)
    status, fields, page = client.ask("GET", "/")
    row("the page", (status, fields["content-type"]), (200, "text/html; charset=utf-8"))
    row("nothing of elsewhere in the page", re.findall(r"(?:src|href)=\"(?!data:)|url\(|https?://", page), [])
    row("its policy", fields["content-security-policy"].startswith("default-src 'none'; script-src 'unsafe-inline'"), True)
    status, fields, body = client.ask("HEAD", "/")
    row("its head alone", (status, fields["content-length"], body), (200, str(len(page.encode())), ""))
    row("health", client.ask("GET", "/healthz")[::2], (200, "ok\n"))
    row("an empty sheet", client.ask("GET", "/sheet")[::2], (200, '{"ok":"settled","rows":[["",""],["",""]]}\n'))
    row("an edit", client.ask("POST", "/edits", '{"cell":"A1","text":"=1+2"}')[::2], (200, '{"number":0,"ok":"done"}\n'))
    row("the next one", client.ask("POST", "/edits", '{"text":"=[.A1]*2","cell":"b2"}')[::2], (200, '{"number":1,"ok":"done"}\n'))
    row("the values", client.ask("GET", "/sheet")[::2], (200, '{"ok":"settled","rows":[["3",""],["","6"]]}\n'))
    row("no cache keeps them", client.ask("HEAD", "/sheet")[1]["cache-control"], "no-store")
    row("a text with a fault", client.edit("A1", "=1+"), (422, {"code": 11, "error": "text", "fault": "Unfinished", "offset": 3}))
    row("no cell of the sheet", client.edit("C1", "1"), (400, {"code": 3, "error": "bad-field"}))
    row("no text", client.ask("POST", "/edits", '{"cell":"A1"}')[::2], (400, '{"code":3,"error":"bad-field"}\n'))
    row("no JSON", client.ask("POST", "/edits", "{")[::2], (400, '{"code":1,"error":"not-json"}\n'))
    row("none of these edits was made", client.sheet(), [["3", ""], ["", "6"]])
    status, fields, body = client.ask("POST", "/lines", '{"op":"join","process":0}\n{"op":"report"}\n{"op":"last"}')
    row("lines", (status, fields["content-type"], body.splitlines()), (200, "application/x-ndjson", [
        '{"last":null,"ok":"join","process":0}', '{"ok":"settled","rows":[["3",""],["","6"]]}', '{"last":null,"ok":"last"}']))
    row("no lines", client.ask("POST", "/lines", "")[::2], (200, ""))
    row("lines that are none", client.ask("POST", "/lines", "{\n\n")[2].splitlines(), ['{"code":1,"error":"not-json"}'] * 2)
    row("a cell and its last edit", client.ask("GET", "/cells/b2")[::2], (
        200, '{"cell":"B2","edit":{"number":1,"process":1},"ok":"got","text":"=[.A1]*2","value":"6"}\n'))
    row("a cell that nobody edited", client.ask("GET", "/cells/A2")[::2], (200, '{"cell":"A2","edit":null,"ok":"got","text":"","value":""}\n'))
    row("its head alone", client.ask("HEAD", "/cells/A1")[::2], (200, ""))
    for path in ["/cells/C1", "/cells/", "/cells/A1/", "/cells", "/cells/%411"]:
        row(f"no cell of the sheet: {path}", client.ask("GET", path)[::2], (404, '{"code":31,"error":"not-found"}\n'))
    both = [{"cell": "A1", "number": 0, "process": 1, "text": "=1+2"}, {"cell": "B2", "number": 1, "process": 1, "text": "=[.A1]*2"}]
    for query, edits, first in [("", both, 0), ("?from=0", both, 0), ("?from=1", both[1:], 1), ("?from=02", [], 2), ("?from=18446744073709551614", [], 2**64 - 2)]:
        status, _, body = client.ask("GET", "/edits" + query)
        row(f"the list of edits{query}", (status, json.loads(body)), (200, {"edits": edits, "from": first, "of": 2, "ok": "history"}))
    for query in ["?", "?from=", "?from=x", "?from=-1", "?from=1&most=2", "?most=1", "?from=18446744073709551615"]:
        row(f"no place in the list: {query}", client.ask("GET", "/edits" + query)[::2], (400, '{"code":3,"error":"bad-field"}\n'))
    status, fields, body = client.ask("DELETE", "/edits")
    row("another method", (status, fields["allow"], body), (405, "GET, HEAD, POST", '{"code":32,"error":"method-not-allowed"}\n'))
    row("a method that changes", client.ask("PUT", "/sheet", "1")[1]["allow"], "GET, HEAD")
    row("no such path", client.ask("GET", "/edit/1")[::2], (404, '{"code":31,"error":"not-found"}\n'))
    row("a query is no part of the path", client.ask("GET", "/healthz?a=1")[0], 200)
    client.socket.sendall(b"POST /edits HTTP/1.1\r\nhost: localhost\r\ntransfer-encoding: chunked\r\nexpect: 100-continue\r\n\r\n")
    row("it is told to go on", client.head()[0], 100)
    client.socket.sendall(b'9\r\n{"cell":"\r\n12\r\nA2","text":"41+1"}\r\n0\r\n\r\n')
    row("a body in chunks", client.answer()[0], 422)
    client.socket.sendall(b"GET /healthz HTTP/1.1\r\nhost: localhost\r\n\r\n" * 20)
    row("twenty requests at once", [client.answer()[0] for _ in range(20)], [200] * 20)
    row("it asks to close", (client.ask("GET", "/healthz", connection="close")[1]["connection"], client.has_ended()), ("close", True))


def keys(server):
    """Edits with keys: each counts once, and what became of it is answered."""
    client, edit = Client(server), '{"cell":"B1","text":"41"}'
    before = json.loads(client.ask("GET", "/edits")[2])["of"]
    first = client.ask("POST", "/edits", edit, idempotency_key="pay-7")[::2]
    number = json.loads(first[1])["number"]
    row("an edit with a key", first, (200, f'{{"number":{number},"ok":"done"}}\n'))
    row("the same again", client.ask("POST", "/edits", edit, idempotency_key="pay-7")[::2], first)
    row("the same again, by a name in other letters", client.ask("POST", "/edits", edit, IDEMPOTENCY_Key="pay-7")[::2], first)
    row("the same again, by the body", client.ask("POST", "/edits", '{"cell":"b1","key":"pay-7","text":"41"}')[::2], first)
    row("the same again, by both", client.ask("POST", "/edits", '{"cell":"B1","key":"pay-7","text":"41"}', idempotency_key="pay-7")[::2], first)
    answers = client.ask("POST", "/lines", '{"op":"join","process":0}\n{"op":"set","cell":"B1","key":"pay-7","text":"41"}')[2].splitlines()
    row("the same again, by a session", answers[1] + "\n", first[1])
    reused, bad = (422, '{"code":21,"error":"key-reused"}\n'), (400, '{"code":3,"error":"bad-field"}\n')
    row("another text by that key", client.ask("POST", "/edits", '{"cell":"B1","text":"42"}', idempotency_key="pay-7")[::2], reused)
    row("another cell by that key", client.ask("POST", "/edits", '{"cell":"A2","text":"41"}', idempotency_key="pay-7")[::2], reused)
    row("two keys that differ", client.ask("POST", "/edits", '{"cell":"B1","key":"pay-8","text":"41"}', idempotency_key="pay-7")[::2], bad)
    for value in ["", "a b", "k" * 65, "käse"]:
        row(f"no key: {value!r}", client.ask("POST", "/edits", edit, idempotency_key=value)[::2], bad)
    for value in ["7", "null", '""', '"a b"', f'"{"k" * 65}"']:
        row(f"no key in the body: {value}", client.ask("POST", "/edits", f'{{"cell":"B1","key":{value},"text":"41"}}')[::2], bad)
    row("one edit was made", json.loads(client.ask("GET", "/edits")[2])["of"], before + 1)
    done = f'{{"edit":{{"cell":"B1","number":{number},"process":1,"text":"41"}},"ok":"outcome","outcome":"done"}}\n'
    row("what became of it", client.ask("GET", "/edits/pay-7")[::2], (200, done))
    row("the head of that alone", client.ask("HEAD", "/edits/pay-7")[::2], (200, ""))
    row("a query is no part of a key", client.ask("GET", "/edits/pay-7?from=0")[::2], (200, done))
    row("the same by a session", client.ask("POST", "/lines", '{"op":"outcome","key":"pay-7"}')[2], done)
    for again in ["", ", asked again"]:
        row("a key that none has" + again, client.ask("GET", "/edits/pay-9")[::2], (200, '{"edit":null,"ok":"outcome","outcome":"never"}\n'))
    row("an edit with it is refused", client.ask("POST", "/edits", edit, idempotency_key="pay-9")[::2], reused)
    row("the longest key", client.ask("POST", "/edits", edit, idempotency_key="k" * 64)[0], 200)
    for path in ["/edits/", "/edits/a/b", "/edits/a%2Db", "/edits/" + "k" * 65]:
        row(f"no key of a path: {path}", client.ask("GET", path)[::2], (404, '{"code":31,"error":"not-found"}\n'))
    row("another method", client.ask("DELETE", "/edits/pay-7")[1]["allow"], "GET, HEAD")


def metrics(server):
    """The numbers of the server, by what is done between two looks at them."""
    def look():
        status, fields, body = client.ask("GET", "/metrics")
        assert (status, fields["content-type"]) == (200, "text/plain; version=0.0.4; charset=utf-8"), (status, fields)
        return body

    client = Client(server)
    first = look()
    lines, commits = first.splitlines()[:-4], first.splitlines()[-4:]
    names = [line.split()[0] for line in lines[2::3]]
    row("metrics: three lines each", ([line.split()[:3] for line in lines[0::3]], [line.split()[:3] for line in lines[1::3]]),
        ([["#", "HELP", name] for name in names], [["#", "TYPE", name] for name in names]))
    row("metrics: their types", [line.split()[3] for line in lines[1::3]], ["counter"] * 5 + ["gauge"])
    row("metrics: their names", names, [f"dsheet_{name}" for name in [
        "edits_done_total", "edits_overtaken_total", "calls_refused_total", "reports_total", "sessions_joined_total", "sessions"]])
    row("metrics: it ends with a line", first[-1], "\n")
    name = "dsheet_commit_seconds"
    row("metrics: the commits", ([line.split()[:3] for line in commits[:2]], commits[1].split()[3], [line.split()[0] for line in commits[2:]]),
        ([["#", "HELP", name], ["#", "TYPE", name]], "summary", [f"{name}_sum", f"{name}_count"]))
    for _ in range(3):
        client.edit("A1", "4")
    client.edit("A1", "=")
    client.sheet()
    last = look()
    took, made = (float(new.split()[1]) - float(old.split()[1]) for old, new in zip(commits[2:], last.splitlines()[-2:]))
    row("metrics: three edits in at most as many commits, in less than a minute", (1 <= made <= 3, 0 < took < 60), (True, True))
    old, new = (dict(line.split() for line in body.splitlines()[2:-4:3]) for body in (first, last))
    grown = {name: int(new[name]) - int(old[name]) for name in names}
    row("metrics: three edits and one that is refused", (grown[names[0]], grown[names[1]], grown[names[2]]), (3, 0, 1))
    row("metrics: a report", grown[names[3]], 1)
    row("metrics: a connection", int(new[names[5]]) >= 1, True)


def events(server):
    """The list of edits as events: each is named by the place after its edits, from which the next request asks."""
    def look(query="", **fields):
        status, told, body = client.ask("GET", "/events" + query, **fields)
        return status, told["content-type"], body.split("\n")

    client = Client(server)
    of = json.loads(client.ask("GET", "/edits")[2])["of"]
    client.edit("A2", "5")
    status, kind, (retry, place, data, *end) = look(f"?from={of}")
    said = json.loads(data.removeprefix("data: "))
    row("events: an edit", (status, kind, retry, place, end), (200, "text/event-stream", "retry: 1000", f"id: {of + 1}", ["", ""]))
    row("events: which it is", ([(edit["cell"], edit["text"]) for edit in said["edits"]], said["from"]), ([("A2", "5")], of))
    row("events: no other one", json.loads(look(last_event_id=str(of + 1))[2][2].removeprefix("data: "))["edits"], [])
    client.edit("B2", "6")
    status, kind, (retry, place, data, *end) = look("?from=0", last_event_id=str(of + 1))
    row("events: the next one alone", (place, [edit["cell"] for edit in json.loads(data.removeprefix("data: "))["edits"]]), (f"id: {of + 2}", ["B2"]))
    row("events: a name that is none", look(last_event_id="x")[::2], (400, ["retry: 1000", 'data: {"code":3,"error":"bad-field"}', "", ""]))


def fits(described, schema, value):
    """Whether a value is as a schema of the description has it, by the words of schemas that it uses."""
    if "$ref" in schema:
        return fits(described, described["components"]["schemas"][schema["$ref"].rsplit("/", 1)[1]], value)
    if "oneOf" in schema:
        return sum(fits(described, one, value) for one in schema["oneOf"]) == 1
    if "const" in schema:
        return value == schema["const"]
    if schema["type"] == "array":
        return isinstance(value, list) and all(fits(described, schema["items"], item) for item in value)
    if schema["type"] == "object":
        known = schema["properties"]
        return isinstance(value, dict) and set(schema["required"]) <= set(value) <= set(known) and all(fits(described, known[key], value[key]) for key in value)
    return isinstance(value, {"string": str, "integer": int, "null": type(None)}[schema["type"]]) and value != -1


def description(server):
    """What docs/openapi.json says of each request is so: its statuses, its media types, its answers, and which methods there are."""
    with open(os.path.join(os.path.dirname(os.path.realpath(__file__)), "..", "docs", "openapi.json"), encoding="utf-8") as file:
        described = json.load(file)
    asked = {"connection": "Upgrade", "upgrade": "websocket", "sec_websocket_version": "13", "sec_websocket_key": KEY}
    cases = [
        ("POST", "/edits", '{"cell":"a1","text":"=1+2"}', 200, {}), ("POST", "/edits", '{"cell":"A1","text":"=1+"}', 422, {}),
        ("POST", "/edits", '{"cell":"A1"}', 400, {}), ("GET", "/sheet", None, 200, {}), ("GET", "/edits", None, 200, {}),
        ("POST", "/edits", '{"cell":"A1","text":"=1+2"}', 200, {"idempotency_key": "d-1"}), ("POST", "/edits", '{"cell":"A1","text":"2"}', 422, {"idempotency_key": "d-1"}),
        ("GET", "/edits/d-1", None, 200, {}), ("GET", "/edits/d-2", None, 200, {}), ("GET", "/edits/d%202", None, 404, {}),
        ("GET", "/edits?from=x", None, 400, {}), ("GET", "/cells/A1", None, 200, {}), ("GET", "/cells/C1", None, 404, {}), ("POST", "/lines", "{}", 200, {}),
        ("GET", "/session", None, 426, {}), ("GET", "/session", None, 400, asked | {"sec_websocket_key": "none"}),
        ("GET", "/events", None, 200, {}), ("GET", "/events?from=x", None, 400, {}),
        ("POST", "/explore", "begin 0 set A1 1", 200, {}), ("POST", "/explore", "begin", 422, {}),
        ("POST", "/trace", "set 0 A1 1", 200, {}), ("POST", "/trace", "set 0 Z9 1", 422, {}),
        ("GET", "/session", None, 101, asked), ("GET", "/metrics", None, 200, {}), ("GET", "/healthz", None, 200, {}), ("GET", "/", None, 200, {}),
    ]
    for method, path, body, wanted, fields in cases:
        status, told, text = Client(server).ask(method, path, body, **fields)
        known = re.sub("^/edits/.*", "/edits/{key}", re.sub("^/cells/.*", "/cells/{name}", path.split("?")[0]))
        answers = described["paths"][known][method.lower()]["responses"]
        kind, form = next(iter(answers[str(wanted)].get("content", {}).items()), (None, None))
        value = json.loads(text) if kind == "application/json" else text
        right = form is None or told["content-type"] == kind and fits(described, form["schema"], value)
        row(f"described: {method} {path}, {wanted}", (status, right), (wanted, True))
    for path, methods in described["paths"].items():
        there = sorted(method.upper() for method in methods)
        allowed = Client(server).ask("DELETE", path)[1]["allow"].split(", ")
        row(f"described: the methods of {path}", sorted(set(allowed) - {"HEAD"}), there)
    row("described: no other fields", fits(described, {"$ref": "#/components/schemas/Done"}, {"number": 0, "ok": "done", "more": 1}), False)


def said(program, script, *words):
    """What the program writes for a script."""
    return subprocess.run([program, *words], input=script, capture_output=True, text=True, timeout=60, check=False).stdout


def questions(program, server, quick):
    """Questions about scripts are answered as the program answers them, and touch no sheet."""
    before, client = Client(server).sheet(), Client(server)
    one, two = "sheet 1 1 2\nset 1 A1 3\nbegin 0 set A1 1\n", "begin 0 set A1 1\nbegin 1 set A1 2\n"
    for script in (one, "") if quick else (one, "", two):
        wanted = said(program, script, "explore", "--crashes", "--json")
        row(f"all orders of {script!r}", client.ask("POST", "/explore", script)[::2], (200, wanted))
    status, fields, body = client.ask("POST", "/trace", two)
    row("the picture of a run", (status, fields["content-type"], body), (200, "image/svg+xml", said(program, two, "trace", "--brief")))
    unfit = "422 text/plain; charset=utf-8 "
    for path, script, why in [("/explore", "begin 0 set A1 1\nfoo\n", "line 2: unknown command"), ("/trace", "set 0 A1 1\nfoo\n", "line 2: unknown command"),
                              ("/trace", "set 0 A1 1\n" * 60, "run too long: more than 1000 events"), ("/explore", "# " + "x" * 600, "line 1: line too long"),
                              ("/explore", "# \udcff\n", "the script is not UTF-8, and JSON is")]:
        status, fields, body = client.ask("POST", path, script)
        row(f"{path}: {why}", f"{status} {fields['content-type']} {body}", unfit + why)
    if not quick:
        many = "sheet 2 2 6\n" + "".join(f"begin {process} set A1 {process}\n" for process in range(6))
        patient = Client(server)
        patient.socket.settimeout(240)
        figures = json.loads(patient.ask("POST", "/explore", many)[2].split("\n")[0])
        row("no more states are gone through than a server goes through", (figures["cut"], figures["found"]["states"] >= 20000), (True, True))
    row("nothing of it is in the sheet", Client(server).sheet(), before)


def limits(server):
    """Requests that are too large, and unreadable ones."""
    for what, said, wanted in [
        ("a head that is too long", b"GET / HTTP/1.1\r\nhost: localhost\r\na: " + b"b" * 9000 + b"\r\n\r\n", 431),
        ("a body that is too long", b"POST /lines HTTP/1.1\r\nhost: localhost\r\ncontent-length: 1048577\r\n\r\n", 413),
        ("no request", b"GET / HTTP/1.1\r\nhost\r\n\r\n", 400),
        ("a host that is none", b"GET / HTTP/1.1\r\nhost: a b\r\n\r\n", 400),
    ]:
        client = Client(server)
        client.socket.sendall(said)
        status, fields, _ = client.answer()
        row(what, (status, fields["connection"], client.has_ended()), (wanted, "close", True))
    client = Client(server)
    row("the longest body", client.ask("POST", "/lines", " " * 1048575 + "\n")[::2], (200, '{"code":5,"error":"line-too-long"}\n'))
    row("its last line has no LF, which makes it too long", client.ask("POST", "/lines", " " * 1048576)[0], 413)
    row("answers that are longer than it", Client(server).ask("POST", "/lines", "{\n" * 50000)[::2], (200, '{"code":1,"error":"not-json"}\n' * 50000))


def origins(server):
    """Requests of pages of elsewhere, and for other hosts."""
    refused = (403, '{"code":30,"error":"foreign-origin"}\n')
    edit = '{"cell":"A1","text":"666"}'
    before = Client(server).sheet()
    port = server.port
    for origin in ["http://evil.example", "null", f"https://127.0.0.1:{port}", f"http://127.0.0.1:{port}.evil.example", "http://127.0.0.1:1"]:
        row(f"an edit of a page of {origin}", Client(server).ask("POST", "/edits", edit, origin=origin)[::2], refused)
    row("a page of elsewhere reads", Client(server).ask("GET", "/sheet", origin="http://evil.example")[::2], refused)
    row("a path of elsewhere that is none", Client(server).ask("GET", "/none", origin="http://evil.example")[::2], refused)
    row("a session of elsewhere", WebSocket(server, origin="http://evil.example").status, 403)
    for host in ["evil.example", f"evil.example:{port}", "127.0.0.1.evil.example", "localhost.evil.example", "127.0.0.11", ""]:
        row(f"a host {host}", Client(server, host or " ").ask("POST", "/edits", edit)[0] in (400, 403), True)
    for host in ["localhost", f"localhost:{port}", "127.0.0.1", f"[::1]:{port}", f"127.0.0.1:{port}"]:
        row(f"its own host {host}", Client(server, host).ask("GET", "/healthz", origin=f"http://{host}")[0], 200)
    row("nothing of elsewhere was made", Client(server).sheet(), before)


def addressed(program, token):
    """A server at an address that is no loopback: a request for just that address is answered."""
    with socket.socket(socket.AF_INET, socket.SOCK_DGRAM) as it:
        try:
            it.connect(("192.0.2.1", 9))
            own = it.getsockname()[0]
        except OSError:
            own = "127.0.0.1"
    if own.startswith("127."):
        print("http: the address that is served: not played: this computer has none but loopback")
        return
    server = Server(program, "--token-file", token, host=own)
    row("the address that is served", Client(server).ask("GET", "/healthz")[0], 200)
    for host in [f"{own}:1", f"{own}/", f"1{own}:{server.port}", f"{own}:{server.port}0"]:
        row(f"another address {host}", Client(server, host).ask("GET", "/healthz")[0] in (400, 403), True)
    row("it is asked to stop", server.stop(), 0)


def sockets(server):
    """Sessions over WebSockets."""
    it = WebSocket(server)
    wanted = base64.b64encode(hashlib.sha1((KEY + GUID).encode()).digest()).decode()
    row("a WebSocket", (it.status, it.fields["sec-websocket-accept"]), (101, wanted))
    row("it joins", it.ask(op="join", process=0), {"last": None, "ok": "join", "process": 0})
    row("it edits", it.ask(op="set", cell="A2", text="7"), {"number": 0, "ok": "done"})
    row("it reads", it.ask(op="report")["rows"][1], ["7", "6"])
    it.send(TEXT, "{")
    row("a line that is no JSON", it.hear(), (TEXT, '{"code":1,"error":"not-json"}'))
    it.send(PING, "hi")
    row("a ping", it.hear(), (PONG, b"hi"))
    it.send(TEXT, '{"op":', last=False)
    it.send(PING, "mid")
    it.send(0, '"last"}')
    row("a ping between fragments", it.hear(), (PONG, b"mid"))
    row("a message in fragments", it.hear(), (TEXT, '{"last":{"cell":"A2","number":0,"outcome":"done"},"ok":"last"}'))
    it.send(TEXT, " " * 4097)
    row("a line that is too long", it.hear(), (TEXT, '{"code":5,"error":"line-too-long"}'))
    it.send(CLOSE, struct.pack(">H", 1000) + b"bye")
    row("a close", (it.hear(), it.client.has_ended()), ((CLOSE, struct.pack(">H", 1000) + b"bye"), True))
    it = WebSocket(server, first='{"op":"join","process":0}')
    row("a first message with the head", (it.status, it.hear()), (101, (TEXT, '{"last":{"cell":"A2","number":0,"outcome":"done"},"ok":"join","process":0}')))
    for what, frame, code in [
        ("a message that is no text", WebSocket.frame(BINARY, b"{}"), 1003),
        ("a text of two lines", WebSocket.frame(TEXT, "{}\n{}"), 1003),
        ("a frame with no mask", WebSocket.frame(TEXT, "{}", masked=False), 1003),
        ("a message that is too long", WebSocket.frame(TEXT, " " * 65537), 1003),
    ]:
        other = WebSocket(server)
        other.client.socket.sendall(frame)
        row(what, (other.close_code(), other.client.has_ended()), (code, True))
    row("the other session is there still", it.ask(op="report")["ok"], "settled")
    for what, fields in [("no upgrade", {"upgrade": "h2c"}), ("no connection", {"connection": "close"}), ("another version", {"sec_websocket_version": "8"})]:
        other = WebSocket(server, **fields)
        row(what, (other.status, other.fields["upgrade"], other.body), (426, "websocket", '{"code":33,"error":"upgrade-required"}\n'))
    row("a key that is none", WebSocket(server, sec_websocket_key="abc").status, 400)


def beside(server):
    """Edits by requests beside sessions: each request takes a process that nobody has."""
    talker = socket.create_connection(("127.0.0.1", server.lines), timeout=60)
    lines = talker.makefile("rw", encoding="utf-8", newline="\n")

    def tell(line):
        lines.write(line + "\n")
        lines.flush()
        return json.loads(lines.readline())

    row("a session has process 0", tell('{"op":"join","process":0}')["ok"], "join")
    client = Client(server)
    row("an edit by another process", client.edit("A1", "5")[0], 200)
    row("the session has process 0 still", tell('{"op":"set","cell":"B1","text":"8"}')["ok"], "done")
    row("and reads that edit", tell('{"op":"report"}')["rows"][0], ["5", "8"])
    other = WebSocket(server)
    row("a second session has process 1", other.ask(op="join", process=1)["ok"], "join")
    row("no process is free", client.edit("A1", "6"), (503, {"code": 4, "error": "process-taken"}))
    row("a report needs none", client.sheet()[0], ["5", "8"])
    row("nor does a cell", json.loads(client.ask("GET", "/cells/B1")[2])["value"], "8")
    row("nor a session's view", json.loads(client.ask("POST", "/lines", '{"op":"view"}')[2])["rows"], client.sheet())
    other.client.close()
    for _ in range(200):
        if client.edit("A1", "9")[0] == 200:
            break
        time.sleep(0.05)
    row("one is free again", client.sheet()[0], ["9", "8"])
    talker.close()


def many(server, count):
    """Clients that edit at once, each its own cell, and one that reads: each edit that is answered done is there."""
    def work(cell, ends):
        client = Client(server)
        for number in range(count):
            for _ in range(1000):
                status, _ = client.edit(cell, str(number))
                if status == 200:
                    break
                assert status == 503, status
                time.sleep(0.002)
            else:
                raise AssertionError("no process in time")
        ends.append(cell)

    ends = []
    threads = [threading.Thread(target=work, args=(cell, ends)) for cell in ["A1", "B1", "A2", "B2"]]
    for thread in threads:
        thread.start()
    for thread in threads:
        thread.join()
    row("four clients at once", sorted(ends), ["A1", "A2", "B1", "B2"])
    client = Client(server)
    row("their last edits are there", [client.sheet() for _ in range(200)][-1], [[str(count - 1)] * 2] * 2)


class Edits:
    """A client that edits by requests."""

    def __init__(self, server):
        self.client = Client(server)

    def edit(self, cell, text):
        """The answer to an edit that is made."""
        status, answer = self.client.edit(cell, text)
        assert status == 200, status
        return answer


class Session:
    """A client that edits in a session over a WebSocket."""

    def __init__(self, server):
        self.socket = WebSocket(server)
        assert self.socket.ask(op="join", process=0)["ok"] == "join"

    def edit(self, cell, text):
        """The answer to an edit."""
        return self.socket.ask(op="set", cell=cell, text=text)


def kills(program, rounds, kind, what):
    """A server with a store is killed while a client edits: what was answered done is there after it starts again."""
    with tempfile.TemporaryDirectory() as room:
        path, said = f"{room}/sheet.db", -1
        for _ in range(rounds):
            server = Server(program, "--store", path, "--columns", "2", "--rows", "2", "--processes", "2")
            value = int(Client(server).sheet()[0][0] or -1)
            assert value in (said, said + 1), f"{said} was acknowledged, and {value} is there"
            client, said = kind(server), value
            killing = threading.Timer(random.uniform(0.0, 0.1), server.kill)
            try:
                for number in range(10000):
                    answer = client.edit("A1", str(said + 1))
                    assert answer["ok"] == "done", answer
                    said += 1
                    if number == 0:
                        killing.start()
            except (OSError, AssertionError, ValueError) as broken:
                assert not isinstance(broken, AssertionError) or "no answer" in str(broken), broken
            server.process.wait(timeout=60)
        row(f"killed {rounds} times beside {what}: no acknowledged edit is lost, of {said + 1}", said + 1 >= rounds, True)


def tokens(program):
    """A server with a token: what acts by a process has to have it."""
    with tempfile.TemporaryDirectory() as room:
        with open(f"{room}/token", "w", encoding="ascii") as it:
            it.write("open sesame\n")
        os.chmod(f"{room}/token", 0o600)
        server = Server(program, "--token-file", f"{room}/token")
        client, edit = Client(server), '{"cell":"A1","text":"1"}'
        status, fields, body = client.ask("POST", "/edits", edit)
        row("an edit without the token", (status, fields["www-authenticate"], body), (401, "Bearer", '{"code":20,"error":"denied"}\n'))
        for value in ["Bearer open sesam", "Bearer open sesame2", "open sesame", "Bearer "]:
            row(f"an edit with {value}", client.ask("POST", "/edits", edit, authorization=value)[0], 401)
        row("a report without it", client.ask("GET", "/sheet")[0], 401)
        row("the numbers without it", client.ask("GET", "/metrics")[0], 401)
        row("the numbers with it", client.ask("GET", "/metrics", authorization="Bearer open sesame")[0], 200)
        row("a question about a script without it", client.ask("POST", "/explore", "begin 0 set A1 1")[0], 401)
        row("a picture with it", client.ask("POST", "/trace", "set 0 A1 1", authorization="Bearer open sesame")[0], 200)
        row("a cell without it", client.ask("GET", "/cells/A1")[0], 401)
        row("the list of edits without it", client.ask("GET", "/edits")[0], 401)
        row("events without it", client.ask("GET", "/events")[0], 401)
        row("what became of an edit without it", client.ask("GET", "/edits/k-1")[0], 401)
        row("that has spent no key", client.ask("POST", "/edits", edit, authorization="Bearer open sesame", idempotency_key="k-1")[0], 200)
        row("what became of it with it", json.loads(client.ask("GET", "/edits/k-1", authorization="Bearer open sesame")[2])["outcome"], "done")
        row("a report with it", client.ask("GET", "/sheet", authorization="Bearer open sesame")[2], '{"ok":"settled","rows":[["1",""],["",""]]}\n')
        row("an edit with it", client.ask("POST", "/edits", edit, authorization="Bearer open sesame")[0], 200)
        row("a join without it", client.ask("POST", "/lines", '{"op":"join","process":0}')[2], '{"code":20,"error":"denied"}\n')
        row("a join with it", client.ask("POST", "/lines", '{"op":"join","process":0,"token":"open sesame"}')[2], '{"last":null,"ok":"join","process":0}\n')
        for op in ['"view"', '"get","cell":"A1"', '"history","from":0', '"outcome","key":"k-1"']:
            asked = f'{{"op":{op}}}\n{{"op":{op},"token":"open sesame"}}\n{{"op":"join","process":0,"token":"open sesame"}}\n{{"op":{op}}}'
            answers = [json.loads(line).get("error") for line in client.ask("POST", "/lines", asked)[2].splitlines()]
            row(f"a question by {op} without it, with it, and after a join", answers, ["denied", None, None, None])
        row("the page needs none", client.ask("GET", "/")[0], 200)
        server.stop()
        addressed(program, f"{room}/token")


def slow(program):
    """Clients that say little: a request has to come whole in ten seconds."""
    server = Server(program, "--idle", "1")
    client = Client(server)
    row("nothing is said for a second", client.has_ended(), True)
    server.stop()
    server = Server(program, "--idle", "60")
    client, begun = Client(server), time.monotonic()
    try:
        for byte in b"GET / HTTP/1.1\r\nhost: localhost\r\na: " + b"b" * 400:
            client.socket.sendall(bytes([byte]))
            time.sleep(0.1)
    except OSError:
        pass
    row("a request that does not end", 8 < time.monotonic() - begun < 20, True)
    row("it stops with a WebSocket that is silent", (WebSocket(server).status, server.stop()), (101, 0))


def play(program, quick):
    server = Server(program, "--columns", "2", "--rows", "2", "--processes", "2")
    requests(server)
    keys(server)
    metrics(server)
    events(server)
    description(server)
    questions(program, server, quick)
    limits(server)
    origins(server)
    sockets(server)
    beside(server)
    many(server, 10 if quick else 50)
    row("it is asked to stop", server.stop(), 0)
    kills(program, 5 if quick else 40, Edits, "requests")
    kills(program, 5 if quick else 20, Session, "a session over a WebSocket")
    tokens(program)
    slow(program)


def main():
    quick, program = sys.argv[1:-1] == ["--quick"], sys.argv[-1]
    failed = 0
    try:
        play(os.path.realpath(program), quick)
    except Exception:  # pylint: disable=broad-except
        traceback.print_exc()
        failed = 1
    print(f"http: {passed} passed, {failed} failed")
    sys.stdout.flush()
    for process in Server.running:
        process.kill()
    os._exit(1 if failed else 0)


if __name__ == "__main__":
    main()
