"""A sheet over HTTP, where each edit counts once, however often it has to be sent.

An edit has a key. One whose answer was lost is sent again with its key, also after the server was killed.

>>> with tempfile.TemporaryDirectory() as room:
...     with serving("--store", f"{room}/sheet.db") as sheet:
...         sheet.edit("A1", "20", key="pay-7")
...         sheet.edit("B1", "=[.A1]*2+2")["ok"]
...     with serving("--store", f"{room}/sheet.db") as sheet:
...         sheet.edit("A1", "20", key="pay-7")
...         sheet.sheet()
...         sheet.cell("B1")["text"], [edit["cell"] for edit in sheet.edits()]
{'number': 0, 'ok': 'done'}
'done'
{'number': 0, 'ok': 'done'}
[['20', '42'], ['', '']]
('=[.A1]*2+2', ['A1', 'B1'])

What became of an edit: it is there; or no edit has its key, and from then on none ever will.

>>> with serving() as sheet:
...     sheet.edit("A2", "7", key="pay-8")["ok"]
...     sheet.outcome("pay-8")["text"], sheet.outcome("pay-9"), next(sheet.events())["text"]
'done'
('7', None, '7')
>>> with serving() as sheet:
...     _ = sheet.outcome("pay-9")
...     sheet.edit("A2", "8", key="pay-9")
Traceback (most recent call last):
    ...
client.Refused: key-reused
"""

import contextlib
import http.client
import json
import os
import pathlib
import re
import subprocess
import tempfile
import time
import uuid

PROGRAM = os.environ.get("DSHEET") or str(pathlib.Path(__file__).parents[2] / "dsheet")
BROKEN = (OSError, http.client.BadStatusLine, http.client.IncompleteRead)


class Refused(Exception):
    """A call that the server refuses, or an edit that was overtaken: it is not made. `answer` says why."""

    def __init__(self, answer):
        super().__init__(answer.get("error") or answer.get("ok") or "unknown")
        self.answer = answer


class Sheet:
    """The sheet of the server at an address, as 127.0.0.1:8081. `patience`: for how many seconds a call is tried."""

    def __init__(self, address, token=None, patience=30.0):
        self.address, self.patience = address, patience
        self.fields = {"authorization": f"Bearer {token}"} if token else {}

    def edit(self, cell, text, key=None):
        """Sets the text of a cell, once. Give a key where this program may be killed and has to go on; else one is drawn."""
        key = str(uuid.uuid4()) if key is None else key
        return self._ask("POST", "/edits", json.dumps({"cell": cell, "text": text}), {"idempotency-key": key})

    def outcome(self, key):
        """The edit with this key. None: no edit has it, and none ever will."""
        return self._ask("GET", f"/edits/{key}")["edit"]

    def sheet(self):
        """The values of all cells, row by row."""
        return self._ask("GET", "/sheet")["rows"]

    def cell(self, name):
        """The value and the text of a cell, and its last edit."""
        return self._ask("GET", f"/cells/{name}")

    def edits(self, start=0):
        """The edits that count, in order, from a place on; at most 100."""
        return self._ask("GET", f"/edits?from={start}")["edits"]

    def events(self, start=0):
        """The edits that count, in order, from a place on; where there are no more, it waits for the next one."""
        while True:
            edits = self.edits(start)
            yield from edits
            start += len(edits)
            if not edits:
                time.sleep(1)

    def _ask(self, method, path, body=None, fields=None):
        """The answer to a call, which is made again while the connection breaks or the server is busy: an edit has a key."""
        deadline = time.monotonic() + self.patience
        while True:
            try:
                connection = http.client.HTTPConnection(self.address, timeout=max(0.1, deadline - time.monotonic()))
                with contextlib.closing(connection):
                    connection.request(method, path, body, self.fields | (fields or {}))
                    answer = connection.getresponse()
                    status, said = answer.status, json.loads(answer.read() or "{}")
                if status == 200:
                    return said
                if status not in (500, 503) or time.monotonic() > deadline:
                    raise Refused(said)
            except BROKEN:
                if time.monotonic() > deadline:
                    raise
            time.sleep(0.05)


@contextlib.contextmanager
def serving(*words):
    """The sheet of a server, a new one or that of a store. The server is killed (kill -9) where it is used no more."""
    ask = [PROGRAM, "serve", "--http", "127.0.0.1:0", "--forever", *words]
    with subprocess.Popen(ask, stdin=subprocess.DEVNULL, stderr=subprocess.PIPE, text=True) as process:
        try:
            said = (re.match(r"dsheet: HTTP on (\S+)", line) for line in process.stderr)
            yield Sheet(next(filter(None, said))[1])
        finally:
            process.kill()
