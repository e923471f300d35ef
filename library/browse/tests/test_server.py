"""Whom the server answers, and what it does to the store."""

import os
import signal
import socket
import subprocess
import sys
import tempfile
from pathlib import Path

import timestore

from timestore_browse import copying, files

from .base import BrowseTest, rows

SCRIPT = Path(__file__).resolve().parents[1] / "timestore-browse"


class Addresses(BrowseTest):
    def setUp(self) -> None:
        super().setUp()
        self.server = self.serve()

    def test_this_machine_alone(self) -> None:
        self.assertEqual(self.server.server_address[0], "127.0.0.1")

    def test_hosts(self) -> None:
        """A name that leads here is refused where it is not this server's, so that no page of another site reads the answers."""
        port = self.server.server_port
        for host in (f"127.0.0.1:{port}", f"localhost:{port}", f"LOCALHOST:{port}"):
            self.assertEqual(self.ask(self.server, "/", headers={"Host": host}).status, 200, host)
        strange = "", "127.0.0.1", "localhost", "evil.example", f"evil.example:{port}", f"localhost.evil.example:{port}"
        for host in (*strange, f"127.0.0.1:{port + 1}", f"127.0.0.2:{port}", f"[::1]:{port}"):
            for path in ("/", "/style.css", "/relations/1.csv", "/copy"):
                reply = self.ask(self.server, path, headers={"Host": host})
                self.assertEqual((reply.status, reply.body), (403, "403 Forbidden\n"), (host, path))
            self.assertEqual(self.ask(self.server, "/copy", "POST", {"Host": host}).status, 403)

    def test_origins(self) -> None:
        port = self.server.server_port
        own = f"http://127.0.0.1:{port}"
        self.assertEqual(self.ask(self.server, "/copy", "POST", {"Origin": own}).status, 303)
        for origin in ("http://evil.example", "null", f"http://localhost:{port}", f"https://127.0.0.1:{port}"):
            self.assertEqual(self.ask(self.server, "/copy", "POST", {"Origin": origin}).status, 403, origin)
            self.assertEqual(self.ask(self.server, "/", headers={"Origin": origin}).status, 403, origin)

    def test_paths(self) -> None:
        """No file is reached by a path but the two that belong to the pages."""
        tricks = (
            "//evil.example/", "/..", "/../", "/../../etc/passwd", "/%2e%2e/%2e%2e/etc/passwd", "/style.css/../server.py", "/server.py", "/style.js",
            "/slider.css", "/status", "/heap", "/style.css%00", "/./style.css", "/Style.css", "/relations", "/relations/", "/relations/01", "/relations/65536",
            "/relations/-1", "/relations/1/", "/relations/1%2F..", "/relations/1/records/18446744073709551616", "/relations/1/records/007", "/relations/%D9%A3",
            "/relations/1.csv/../..", "/relations/1/../2", "/relations/1\\..\\2", "/commits/0", "/commits/9223372036854775808", "/copy",
        )  # fmt: skip
        for path in tricks:
            self.assertEqual(self.ask(self.server, path).status, 404, path)
        self.assertEqual(self.ask(self.server, f"http://127.0.0.1:{self.server.server_port}/").status, 404)
        self.assertEqual(self.ask(self.server, "/relations/1?" + "&".join(f"a{number}=1" for number in range(9))).status, 404)

    def raw(self, request: str) -> bytes:
        """The first line of the answer to a request, byte by byte."""
        with socket.create_connection(("127.0.0.1", self.server.server_port), timeout=30) as line:
            line.sendall(request.encode("latin-1"))
            return line.makefile("rb").readline()

    def test_raw_requests(self) -> None:
        host = f"Host: 127.0.0.1:{self.server.server_port}\r\n"
        self.assertEqual(self.raw(f"GET / HTTP/1.1\r\n{host}\r\n"), b"HTTP/1.0 200 OK\r\n")
        for headers in (f"{host}{host}", f"{host}Host: evil.example\r\n", "", f"{host}Origin: null\r\n"):
            self.assertEqual(self.raw(f"GET / HTTP/1.1\r\n{headers}\r\n"), b"HTTP/1.0 403 Forbidden\r\n", headers)
        for path in ("..", "relations/1", "*", "/relations/1\0", "/relations/\xb2", "/style.css/", "/;/style.css"):
            self.assertEqual(self.raw(f"GET {path} HTTP/1.1\r\n{host}\r\n"), b"HTTP/1.0 404 Not Found\r\n", path)

    def test_methods(self) -> None:
        for method in ("PUT", "DELETE", "OPTIONS", "TRACE", "CONNECT"):
            self.assertEqual(self.ask(self.server, "/", method).status, 501, method)
        self.assertEqual(self.ask(self.server, "/", "POST").status, 404)
        reply = self.ask(self.server, "/", "HEAD")
        self.assertEqual((reply.status, reply.body), (200, ""))
        self.assertGreater(int(reply.headers["Content-Length"]), 500)

    def test_nothing_from_elsewhere(self) -> None:
        """Pages name no other site, and tell the browser to load nothing from one."""
        for path in ("/", "/relations/1", "/relations/1/records/7", "/commits", "/nowhere"):
            reply = self.ask(self.server, path)
            policy = reply.headers["Content-Security-Policy"]
            self.assertTrue(policy.startswith("default-src 'none'; "), policy)
            self.assertNotIn("unsafe", policy)
            self.assertEqual((reply.headers["X-Content-Type-Options"], reply.headers["Referrer-Policy"]), ("nosniff", "same-origin"))
            self.assertNotIn("://", reply.body)
            self.assertNotIn(" style=", reply.body)
            self.assertNotRegex(reply.body, r" on[a-z]+=")
        self.assertEqual(self.ask(self.server, "/style.css").headers["Content-Type"], "text/css; charset=utf-8")
        self.assertEqual(self.ask(self.server, "/slider.js").headers["Content-Type"], "text/javascript; charset=utf-8")


class Copies(BrowseTest):
    def test_store_is_left_as_it_was(self) -> None:
        """Its files have the same bytes, and it can be opened while its copy is shown."""
        before = {file.name: (file.read_bytes(), file.stat().st_mtime_ns) for file in self.folder.iterdir()}
        server = self.serve()
        for path in ("/", "/relations/1?step=0", "/relations/1/history.csv"):
            self.assertEqual(self.ask(server, path).status, 200)
        self.assertEqual({file.name: (file.read_bytes(), file.stat().st_mtime_ns) for file in self.folder.iterdir()}, before)
        with timestore.Store(self.folder) as store, store.begin(now=200) as txn:
            txn.put(1, 7, b"d")
        page = self.page(server, "/relations/1/records/7")
        self.assertIn("The store has changed since this copy was made.", page)
        self.assertEqual(rows(page)[0][-1], "c")
        self.assertEqual(self.ask(server, "/copy", "POST").status, 303)
        page = self.page(server, "/relations/1/records/7")
        self.assertNotIn("The store has changed", page)
        self.assertEqual(rows(page)[0][-1], "d")

    def test_store_in_use(self) -> None:
        """It is said, and once the store is free it is shown. Then its copy stays, whoever opens the store."""
        store = timestore.Store(self.folder)
        server = self.serve()
        for path in ("/", "/relations/1", "/relations/1.csv"):
            reply = self.ask(server, path)
            self.assertEqual(reply.status, 503)
            self.assertIn("Another process has the store open, so it can&#x27;t be copied now.", reply.body)
            self.assertIn("<button>Try again</button>", reply.body)
        self.assertEqual(self.ask(server, "/style.css").status, 200)
        self.assertEqual(self.ask(server, "/copy", "POST").status, 303)
        self.assertEqual(self.ask(server, "/").status, 503)
        store.close()
        self.assertEqual(self.ask(server, "/copy", "POST").status, 303)
        self.assertEqual(rows(self.page(server, "/relations/1")), [["7", "c"], ["8", "x|y"]])
        with timestore.Store(self.folder):
            self.assertEqual(self.ask(server, "/copy", "POST").status, 303)
            page = self.page(server, "/relations/1")
        self.assertIn("Another process has the store open: this is still the copy of ", page)
        self.assertEqual(rows(page), [["7", "c"], ["8", "x|y"]])

    def test_beside_a_process_that_has_it_open(self) -> None:
        with timestore.Store(self.folder) as store:
            server = self.serve(is_locked=False)
            self.assertEqual(rows(self.page(server, "/relations/1")), [["7", "c"], ["8", "x|y"]])
            with store.begin(now=200) as txn:
                txn.put(1, 7, b"d")
            self.ask(server, "/copy", "POST")
            self.assertEqual(rows(self.page(server, "/relations/1")), [["7", "d"], ["8", "x|y"]])

    def test_log(self) -> None:
        """The log as the format has it, also with pieces and other slots than commits."""
        with timestore.Store(self.folder) as store:
            store.archive(120)
            store.reclaim()
            store.grow()
            with store.begin(label=2**64 - 1, now=2**63 - 1) as txn:
                txn.put(1, 7, b"e")
        log = files.read_log(self.folder)
        self.assertEqual((log.reclaimed, len(log.runs)), (120, 1))
        self.assertEqual(log.commits, [
            (100, 1, 1), (110, 2, 2), (120, 3, 1), (130, 4, 1), (140, 5, 1), (150, 6, 1), (2**63 - 1, 2**64 - 1, 1),
        ])  # fmt: skip

    def relations(self) -> list[int]:
        """The relations of the store."""
        return files.relations(self.folder, files.read_log(self.folder))

    def test_relations(self) -> None:
        """Those of the heap and of the archive, in records of each kind and chains of many extents."""
        with timestore.Store(self.folder) as store:
            with store.begin() as txn:
                for record in range(200):
                    txn.put(3, record, b"x" * 255)
                txn.put(4, 1, b"y" * 255, b"a")
            with store.begin() as txn:  # a delta, then an anchor
                txn.put(4, 1, b"y" * 255, b"b")
                txn.put(5, 1, *[b"", b"z"] * 8)
            with store.begin() as txn:
                txn.delete(2, 1)
                txn.put(6, 1, b"a")
            self.assertEqual(self.relations(), [1, 2, 3, 4, 5, 6, 65_535])
            store.archive(store.last)
            store.reclaim()
            with store.begin() as txn:
                txn.put(7, 1, b"a")
        self.assertEqual(self.relations(), [1, 2, 3, 4, 5, 6, 7, 65_535])

    def test_reclaim_amid_the_copy(self) -> None:
        """Without the lock a copy is taken again where a reclaim came in between; in the end it is refused."""
        marks = [120, 130, 140]
        front = copying._copy_front

        def copy_and_reclaim(folder: Path, target: Path) -> None:
            front(folder, target)
            if marks:
                with timestore.Store(folder) as store:
                    store.archive(marks.pop(0))
                    store.reclaim()

        copying._copy_front = copy_and_reclaim
        self.addCleanup(setattr, copying, "_copy_front", front)
        with tempfile.TemporaryDirectory() as target:
            with self.assertRaises(copying.InUse):
                copying.copy(self.folder, Path(target), 0.1, is_locked=False)
            copying.copy(self.folder, Path(target), 0.1, is_locked=False)
            with timestore.Store(target) as store:
                self.assertEqual(store.at(1, 7, 110), (b"b",))


class Endless(BrowseTest):
    """A store of profile 4."""

    def make(self) -> None:
        timestore.make_endless(self.folder, 64)

    def test_log(self) -> None:
        """Of the commits up to the last reclaim time and label alone."""
        whole = [(100, 1, 1), (110, 2, 2), (120, 3, 1), (130, 4, 1), (140, 5, 1), (150, 6, 1)]
        self.assertEqual(files.read_log(self.folder), (whole, [], 0, {1, 2, 65_535}))
        with timestore.Store(self.folder) as store:
            store.archive(120)
            store.reclaim()
            store.floor_of(2, 140)
            with store.begin(label=2**64 - 1, now=2**63 - 1) as txn:
                txn.put(7, 7, b"e")
        log = files.read_log(self.folder)
        named = [(time, label, None) for time, label, _ in whole[:3]]
        self.assertEqual(log.commits, [*named, *whole[3:], (2**63 - 1, 2**64 - 1, 1)])
        self.assertEqual((log.reclaimed, len(log.runs), log.relations), (120, 1, {1, 2, 7, 65_535}))
        self.assertEqual(files.relations(self.folder, log), [1, 2, 7, 65_535])
        with timestore.Store(self.folder) as store:
            store.archive(150)
            store.reclaim()
        log = files.read_log(self.folder)
        self.assertEqual(log.commits, [*((time, label, None) for time, label, _ in whole), (2**63 - 1, 2**64 - 1, 1)])
        self.assertEqual((log.reclaimed, len(log.runs)), (150, 2))

    def test_chains_of_many_extents(self) -> None:
        with timestore.Store(self.folder) as store:
            with store.begin(label=7) as txn:
                for record in range(200):
                    txn.put(3, record, b"x" * 255)
                txn.put(4, 1, b"y" * 255, b"a")
            with store.begin(label=8) as txn:
                txn.put(4, 1, b"y" * 255, b"b")
                txn.put(5, 1, *[b"", b"z"] * 8)
                txn.delete(2, 1)
        log = files.read_log(self.folder)
        self.assertEqual([commit[1:] for commit in log.commits[-2:]], [(7, 201), (8, 3)])
        self.assertEqual(files.relations(self.folder, log), [1, 2, 3, 4, 5, 65_535])

    def test_pages(self) -> None:
        """A label is told of commits before the reclaim too, and a commit changes the store, though not its status."""
        with timestore.Store(self.folder) as store:
            store.archive(120)
            store.reclaim()
        server = self.serve()
        self.assertEqual(rows(self.page(server, "/relations/1?at=110")), [["7", "b"], ["8", "x|y"]])
        self.assertEqual([row[-2:] for row in rows(self.page(server, "/relations/1/records/7"))], [["4", "c"], ["3", "no value"], ["2", "b"], ["1", "a"]])
        self.assertEqual([row[1:] for row in rows(self.page(server, "/commits"))][2:4], [["4", "1"], ["3", "not told"]])
        self.assertIn("Its label is <strong>2</strong>", self.page(server, "/commits/110"))
        with timestore.Store(self.folder) as store, store.begin(now=200) as txn:
            txn.put(1, 7, b"d")
        self.assertIn("The store has changed since this copy was made.", self.page(server, "/"))

    def test_never_unlocked(self) -> None:
        """Without the lock it is not copied, whether it is in use or not."""
        with self.assertRaises(copying.NeedsLock):
            self.serve(is_locked=False)
        with timestore.Store(self.folder), self.assertRaises(copying.NeedsLock):
            self.serve(is_locked=False)


class Program(BrowseTest):
    def start(self, *words: str) -> "subprocess.Popen[str]":
        environment = {**os.environ, "TMPDIR": str(self.folder.parent), "PYTHONDONTWRITEBYTECODE": "1"}
        process = subprocess.Popen([sys.executable, SCRIPT, *words], env=environment, stdout=subprocess.PIPE, stderr=subprocess.PIPE, text=True)
        self.addCleanup(process.wait)
        self.addCleanup(process.kill)
        return process

    def test_interrupted(self) -> None:
        """It tells its address, and removes its copy when it ends."""
        process = self.start(str(self.folder))
        assert process.stdout is not None  # it is a pipe
        self.assertRegex(process.stdout.readline(), r"^http://127\.0\.0\.1:[0-9]+/\n$")
        self.assertEqual(len(list(self.folder.parent.glob("timestore-browse-*"))), 1)
        process.send_signal(signal.SIGTERM)
        _, errors = process.communicate(timeout=60)
        self.assertEqual((process.returncode, errors), (0, ""))
        self.assertEqual(list(self.folder.parent.glob("timestore-browse-*")), [])

    def test_without_the_library(self) -> None:
        environment = {**os.environ, "TIMESTORE_LIBRARY": "/nowhere/libtimestore.so"}
        done = subprocess.run([sys.executable, SCRIPT, str(self.folder)], env=environment, capture_output=True, text=True, timeout=60)
        self.assertEqual(done.returncode, 1)
        self.assertRegex(done.stderr, r"^timestore-browse: /nowhere/libtimestore\.so: [^\n]+: the environment's TIMESTORE_LIBRARY names [^\n]+\n$")

    def test_profile_4_unlocked(self) -> None:
        endless = self.folder.parent / "endless"
        endless.mkdir()
        timestore.make_endless(endless, 64)
        _, errors = (process := self.start(str(endless), "--unlocked")).communicate(timeout=60)
        self.assertEqual(process.returncode, 1)
        self.assertEqual(errors, f"timestore-browse: {endless}: --unlocked is not for a store of profile 4, whose copy could be damaged\n")

    def test_nothing_to_show(self) -> None:
        empty = self.folder.parent / "empty"
        empty.mkdir()
        (self.folder / "heap").write_bytes(b"")
        wanted = {empty: "not a store", self.folder.parent / "nowhere": "No such file or directory", self.folder: "damaged"}
        for folder, why in wanted.items():
            _, errors = (process := self.start(str(folder))).communicate(timeout=60)
            self.assertEqual(process.returncode, 1)
            self.assertEqual(errors, f"timestore-browse: {folder}: {why}\n")
