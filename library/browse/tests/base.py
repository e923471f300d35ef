"""What the tests share: a small store, a server over it, and what its pages say."""

import http.client
import re
import tempfile
import threading
import unittest
from html.parser import HTMLParser
from pathlib import Path
from typing import NamedTuple

import timestore

from timestore_browse.server import Server, Source, served

MOST_RECORD = 2**64 - 1
STRANGE = (b"<script>alert('x')</script>&\"", b"\xff\x00", b'say "hi",\nok', b"0x41", b"")


class Reply(NamedTuple):
    """What a server answered."""

    status: int
    headers: http.client.HTTPMessage
    body: str


def fill(store: timestore.Store) -> None:
    """Commits at 100 to 150, whose labels are 1 to 6."""

    def commit(time: int, *writes: tuple[int, int, timestore.Fields | None]) -> None:
        with store.begin(label=time // 10 - 9, now=time) as txn:
            for relation, record, fields in writes:
                if fields is None:
                    txn.delete(relation, record)
                else:
                    txn.put(relation, record, *fields)

    commit(100, (1, 7, (b"a",)))
    commit(110, (1, 7, (b"b",)), (1, 8, (b"x", b"y")))
    commit(120, (1, 7, None))
    commit(130, (1, 7, (b"c",)))
    commit(140, (2, 1, STRANGE))
    commit(150, (65_535, MOST_RECORD, ("Zoë".encode(),)))


class _Tables(HTMLParser):
    """The cells of a page's tables, row by row; fields are parted by |."""

    def __init__(self) -> None:
        super().__init__()
        self.rows: list[list[str]] = []
        self._is_cell = False

    def handle_starttag(self, tag: str, attrs: list[tuple[str, str | None]]) -> None:
        if tag == "tr":
            self.rows.append([])
        elif tag in ("td", "th"):
            self.rows[-1].append("")
            self._is_cell = True
        elif tag == "li" and self._is_cell and self.rows[-1][-1]:
            self.rows[-1][-1] += "|"

    def handle_endtag(self, tag: str) -> None:
        if tag in ("td", "th"):
            self._is_cell = False

    def handle_data(self, data: str) -> None:
        if self._is_cell:
            self.rows[-1][-1] += data


def rows(page: str) -> list[list[str]]:
    """The rows of a page's tables but their heads."""
    found = _Tables()
    found.feed(re.sub(r"<thead>.*?</thead>", "", page, flags=re.DOTALL))
    return found.rows


class BrowseTest(unittest.TestCase):
    """A test with a store in a folder of its own."""

    def make(self) -> None:
        """Makes the store."""
        timestore.make(self.folder, 64)

    def setUp(self) -> None:
        base = tempfile.TemporaryDirectory()
        self.addCleanup(base.cleanup)
        self.folder = Path(base.name) / "store"
        self.folder.mkdir()
        self.make()
        with timestore.Store(self.folder) as store:
            fill(store)

    def serve(self, is_locked: bool = True, names_in: int | None = None) -> Server:
        """A server over the store, until the test ends."""
        server = self.enterContext(served(Source(self.folder, is_locked, 0.1, names_in)))
        thread = threading.Thread(target=server.serve_forever, kwargs={"poll_interval": 0.01})
        thread.start()
        self.addCleanup(thread.join)
        self.addCleanup(server.shutdown)
        return server

    def ask(self, server: Server, path: str, method: str = "GET", headers: dict[str, str] | None = None) -> Reply:
        """What the server answers. Without a Host among the headers its own one is sent."""
        line = http.client.HTTPConnection("127.0.0.1", server.server_port, timeout=30)
        line.putrequest(method, path, skip_host=True, skip_accept_encoding=True)
        for name, text in {"Host": f"127.0.0.1:{server.server_port}", **(headers or {})}.items():
            if text:
                line.putheader(name, text)
        line.endheaders()
        answer = line.getresponse()
        body = answer.read().decode()
        line.close()
        return Reply(answer.status, answer.headers, body)

    def page(self, server: Server, path: str) -> str:
        """A page that must be there."""
        reply = self.ask(server, path)
        self.assertEqual(reply.status, 200, path)
        self.assertEqual(reply.headers["Content-Type"], "text/html; charset=utf-8")
        return reply.body
