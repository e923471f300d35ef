"""The server: its addresses, and whom it answers."""

import argparse
import re
import signal
import sys
import tempfile
from collections.abc import Callable, Iterator
from concurrent.futures import ThreadPoolExecutor
from contextlib import contextmanager
from datetime import datetime, timezone
from http import HTTPStatus
from http.server import BaseHTTPRequestHandler, ThreadingHTTPServer
from importlib import resources
from pathlib import Path
from typing import Any, NamedTuple, NoReturn, cast
from urllib.parse import parse_qsl, urlsplit

import timestore

from . import copying, pages, tables
from .reading import Past
from .values import BadTime, instant, time_of

ADDRESS = "127.0.0.1"
WAIT_SECONDS = 2.0
IDLE_SECONDS = 10
PARAMETERS_MOST = 4
TYPES = {"css": "text/css; charset=utf-8", "js": "text/javascript; charset=utf-8"}
HEADERS = {
    "Content-Security-Policy": "default-src 'none'; style-src 'self'; script-src 'self'; connect-src 'self'; form-action 'self'; "
    "frame-ancestors 'none'; base-uri 'none'",
    "X-Content-Type-Options": "nosniff",
    "Referrer-Policy": "same-origin",  # with "no-referrer" a browser hides the origin of the button that copies again
    "Cross-Origin-Resource-Policy": "same-origin",
    "Cross-Origin-Opener-Policy": "same-origin",
    "Cache-Control": "no-store",
}
IN_USE = (
    "Another process has the store open, so it can't be copied now. It is not waited for. Close the other process and try again. "
    "If the store is not of profile 4, you can also start timestore-browse with --unlocked, which copies the files meanwhile."
)


class Answer(NamedTuple):
    """What is sent back."""

    body: str
    status: HTTPStatus = HTTPStatus.OK
    kind: str = "text/html; charset=utf-8"
    name: str = ""  # of the file that a download becomes


class Missing(Exception):
    """No page is there."""


Query = dict[str, str]


class Source(NamedTuple):
    """A store, and how it is copied."""

    folder: Path
    is_locked: bool = True
    wait_seconds: float = WAIT_SECONDS
    names_in: int | None = None  # the relation that has the names of relations and fields


class Browser:
    """The copy that is shown. Its methods are called on one thread, which owns the store."""

    def __init__(self, source: Source) -> None:
        self._source = source
        self._files: tempfile.TemporaryDirectory[str] | None = None
        self._stamp: tuple[int, ...] = ()
        self._copied = ""
        self._is_in_use = False
        self.past: Past | None = None

    def copy(self) -> None:
        """Takes a new copy. Where the store is in use the one before stays."""
        files = tempfile.TemporaryDirectory(prefix="timestore-browse-")
        try:
            stamp = copying.stamp(self._source.folder)
            copying.copy(self._source.folder, Path(files.name), self._source.wait_seconds, self._source.is_locked)
            past = Past(Path(files.name), self._source.names_in)
        except copying.InUse:
            files.cleanup()
            self._is_in_use = True
            return
        except BaseException:
            files.cleanup()
            raise
        self.close()
        self._files, self._stamp, self.past, self._is_in_use = files, stamp, past, False
        self._copied = datetime.now(timezone.utc).strftime("%H:%M:%S UTC")

    def close(self) -> None:
        """Ends the copy, and removes it."""
        if self.past is not None and self._files is not None:
            self.past.close()
            self._files.cleanup()
        self.past = None

    def frame(self) -> pages.Frame:
        """What is around the pages."""
        notice = ""
        if self.past is not None and self._is_in_use:
            notice = f"Another process has the store open: this is still the copy of {self._copied}."
        elif self.past is not None and self._is_changed():
            notice = "The store has changed since this copy was made."
        return pages.Frame(str(self._source.folder), self._copied, notice)

    def _is_changed(self) -> bool:
        try:
            return copying.stamp(self._source.folder) != self._stamp
        except OSError:
            return True

    def answer(self, path: str, query: Query) -> Answer:
        """The answer to an address."""
        for pattern, page in ROUTES.items():
            if found := re.fullmatch(pattern, path, re.ASCII):
                if self.past is None:
                    return Answer(pages.message(self.frame(), "The store is in use", IN_USE), HTTPStatus.SERVICE_UNAVAILABLE)
                return page(Asked(self.frame(), self.past, query, **_numbers(found)))
        raise Missing


class Asked(NamedTuple):
    """An address that was asked for, with its numbers."""

    frame: pages.Frame
    past: Past
    query: Query
    relation: int = 0
    record: int = 0
    commit: int = 0

    def time(self, name: str, otherwise: int) -> int:
        """A time of the query, which the last commit bounds."""
        return min(time_of(self.query[name]), self.past.last) if self.query.get(name) else otherwise

    def whole(self, name: str, most: int = (1 << 63) - 1) -> int:
        """A number of the query, 0 where there is none."""
        text = self.query.get(name) or "0"
        if not (text.isascii() and text.isdigit() and len(text) < 20):
            raise Missing
        return min(int(text), most)

    def moment(self) -> pages.Moment:
        """What the query asks of a relation's records: at a change by its number, at a time, or at the last commit."""
        moments = self.past.moments(self.relation)
        if "step" in self.query and moments:
            time = moments[self.whole("step", len(moments) - 1)]
        else:
            time = self.time("at", self.past.last)
        return pages.Moment(self.relation, time, self.whole("first"))

    def interval(self) -> pages.Interval:
        """The two moments that the query compares."""
        start = self.time("from", max(self.past.floor(self.relation), self.past.last - 1))
        return pages.Interval(self.relation, start, self.time("to", self.past.last), self.whole("first"))


def _numbers(found: re.Match[str]) -> dict[str, int]:
    """The numbers of an address by their names."""
    numbers = {name: int(text) for name, text in found.groupdict().items()}
    if any(number >= LIMITS[name] for name, number in numbers.items()):
        raise Missing
    return numbers


def _csv(body: str, name: str) -> Answer:
    return Answer(body, kind="text/csv; charset=utf-8; header=present", name=name)


def _home(asked: Asked) -> Answer:
    return Answer(pages.home(asked.frame, asked.past))


def _relation(asked: Asked) -> Answer:
    return Answer(pages.relation(asked.frame, asked.past, asked.moment()))


def _rows(asked: Asked) -> Answer:
    return Answer(pages.records(asked.past, asked.moment()) if asked.past.moments(asked.relation) else "")


def _changes(asked: Asked) -> Answer:
    return Answer(pages.changes(asked.frame, asked.past, asked.interval()))


def _record(asked: Asked) -> Answer:
    return Answer(pages.record(asked.frame, asked.past, asked.relation, asked.record))


def _commits(asked: Asked) -> Answer:
    return Answer(pages.commits(asked.frame, asked.past, asked.whole("first")))


def _commit(asked: Asked) -> Answer:
    if asked.past.label(asked.commit) is None:
        raise Missing
    return Answer(pages.commit(asked.frame, asked.past, asked.commit))


def _records_csv(asked: Asked) -> Answer:
    relation, time, _ = asked.moment()
    return _csv(tables.records_csv(asked.past, relation, time), f"relation-{relation}-at-{time}.csv")


def _history_csv(asked: Asked) -> Answer:
    rows = asked.past.all_versions(asked.relation)
    return _csv(tables.versions_csv(asked.past, rows), f"relation-{asked.relation}-history.csv")


def _changes_csv(asked: Asked) -> Answer:
    relation, start, end, _ = asked.interval()
    return _csv(tables.differences_csv(asked.past, relation, start, end), f"relation-{relation}-changes-{start}-{end}.csv")


def _record_csv(asked: Asked) -> Answer:
    rows = asked.past.versions(asked.relation, asked.record)
    return _csv(tables.versions_csv(asked.past, rows), f"relation-{asked.relation}-record-{asked.record}.csv")


LIMITS = {"relation": 1 << 16, "record": 1 << 64, "commit": 1 << 63}
RELATION = "/relations/(?P<relation>0|[1-9][0-9]{0,4})"
RECORD = "/records/(?P<record>0|[1-9][0-9]{0,19})"
COMMIT = "/commits/(?P<commit>[1-9][0-9]{0,18})"
ROUTES: dict[str, Callable[[Asked], Answer]] = {
    "/": _home,
    RELATION: _relation,
    f"{RELATION}/rows": _rows,
    f"{RELATION}/changes": _changes,
    f"{RELATION}{RECORD}": _record,
    rf"{RELATION}\.csv": _records_csv,
    rf"{RELATION}/history\.csv": _history_csv,
    rf"{RELATION}/changes\.csv": _changes_csv,
    rf"{RELATION}{RECORD}\.csv": _record_csv,
    "/commits": _commits,
    COMMIT: _commit,
}


class Server(ThreadingHTTPServer):
    """A server on this machine alone."""

    daemon_threads = True

    def __init__(self, browser: Browser, owner: ThreadPoolExecutor, port: int) -> None:
        self.browser = browser
        self._owner = owner
        super().__init__((ADDRESS, port), _Handler)
        self.hosts = {f"{name}:{self.server_port}" for name in (ADDRESS, "localhost")}

    def ask(self, function: Callable[..., Any], *args: Any) -> Any:
        """Calls a function on the thread that owns the store."""
        return self._owner.submit(function, *args).result()


class _Handler(BaseHTTPRequestHandler):
    """Answers GET and HEAD, and POST to take a new copy."""

    timeout = IDLE_SECONDS
    server_version = "timestore-browse"
    sys_version = ""

    @property
    def _server(self) -> Server:
        return cast(Server, self.server)

    def do_GET(self) -> None:
        self._send(self._answer())

    do_HEAD = do_GET

    def do_POST(self) -> None:
        if not self._is_own():
            self._send(self._plain(HTTPStatus.FORBIDDEN))
        elif self.path != "/copy":
            self._send(self._plain(HTTPStatus.NOT_FOUND))
        else:
            self._copy()

    def _copy(self) -> None:
        try:
            self._server.ask(self._server.browser.copy)
        except (timestore.Refused, copying.NeedsLock, OSError) as why:
            frame = self._server.ask(self._server.browser.frame)
            self._send(Answer(pages.message(frame, "The store can't be copied", str(why)), HTTPStatus.SERVICE_UNAVAILABLE))
            return
        self.send_response(HTTPStatus.SEE_OTHER)
        self.send_header("Location", "/")
        self.send_header("Content-Length", "0")
        self.end_headers()

    def _is_own(self) -> bool:
        """Whether the request names this server, and comes from its own pages or from none: else another site's page
        may have a name of its own lead here."""
        names = self.headers.get_all("Host") or []
        origins = self.headers.get_all("Origin") or []
        return len(names) == 1 and names[0].lower() in self._server.hosts and all(origin == f"http://{names[0].lower()}" for origin in origins)

    def _answer(self) -> Answer:
        if not self._is_own():
            return self._plain(HTTPStatus.FORBIDDEN)
        if not self.path.startswith("/") or self.path.startswith("//"):
            return self._plain(HTTPStatus.NOT_FOUND)
        address = urlsplit(self.path)
        if name := re.fullmatch(r"/((?:style|slider)\.(css|js))", address.path, re.ASCII):
            return self._file(name[1], name[2])
        try:
            query = dict(parse_qsl(address.query, max_num_fields=PARAMETERS_MOST))
            return cast(Answer, self._server.ask(self._server.browser.answer, address.path, query))
        except (Missing, ValueError, timestore.Refused) as why:
            return self._refusal(why)

    def _refusal(self, why: Exception) -> Answer:
        frame = self._server.ask(self._server.browser.frame)
        match why:
            case timestore.BeforeKept():
                return Answer(pages.message(frame, "Let go", f"History before {instant(why.floor)} UTC was let go."), HTTPStatus.GONE)
            case BadTime():
                return Answer(pages.message(frame, "No such time", str(why)), HTTPStatus.BAD_REQUEST)
            case timestore.Refused():
                return Answer(pages.message(frame, "Refused", f"The store refused this: {why}."), HTTPStatus.INTERNAL_SERVER_ERROR)
            case _:
                return Answer(pages.message(frame, "No such page", "There is no such page."), HTTPStatus.NOT_FOUND)

    def _plain(self, status: HTTPStatus) -> Answer:
        return Answer(f"{status.value} {status.phrase}\n", status, "text/plain; charset=utf-8")

    def _file(self, name: str, kind: str) -> Answer:
        file = resources.files(__package__).joinpath(name)
        return Answer(file.read_text(encoding="utf-8"), kind=TYPES[kind]) if file.is_file() else self._plain(HTTPStatus.NOT_FOUND)

    def _send(self, answer: Answer) -> None:
        body = answer.body.encode()
        self.send_response(answer.status)
        self.send_header("Content-Type", answer.kind)
        self.send_header("Content-Length", str(len(body)))
        if answer.name:
            self.send_header("Content-Disposition", f'attachment; filename="{answer.name}"')
        for name, value in HEADERS.items():
            self.send_header(name, value)
        self.end_headers()
        if self.command != "HEAD":
            self.wfile.write(body)

    def log_message(self, format: str, *args: Any) -> None:
        """Requests are not logged."""


@contextmanager
def served(source: Source, port: int = 0) -> Iterator[Server]:
    """A server over a copy of a store, which is removed at the end. It answers once `serve_forever` is called."""
    browser = Browser(source)
    with ThreadPoolExecutor(1) as owner:
        try:
            owner.submit(browser.copy).result()
            with Server(browser, owner, port) as server:
                yield server
        finally:
            owner.submit(browser.close).result()


def _interrupt(*_: object) -> NoReturn:
    raise KeyboardInterrupt


def _sixteen_bits(text: str) -> int:
    if not (text.isascii() and text.isdigit() and int(text) < 1 << 16):
        raise argparse.ArgumentTypeError(f"{text!r} is not from 0 to 65535")
    return int(text)


def _arguments() -> argparse.Namespace:
    about = "Shows the past of a store in a web browser, on this machine alone. It only reads."
    parser = argparse.ArgumentParser(prog="timestore-browse", description=about)
    parser.add_argument("folder", metavar="DIR", type=Path, help="the folder of the store")
    parser.add_argument("--port", metavar="N", type=_sixteen_bits, default=0, help="the port to listen on; else a free one")
    names = "the relation whose record N has the name of relation N, then those of its fields, each up to a colon"
    parser.add_argument("--names", metavar="REL", type=_sixteen_bits, help=names)
    unlocked = "copy the files while another process has the store open, not those of profile 4; a power cut may undo the last commits that are shown"
    parser.add_argument("--unlocked", action="store_true", help=unlocked)
    return parser.parse_args()


def main() -> int:
    """The exit status: 0 once it is interrupted, 1 where there is nothing to show."""
    args = _arguments()
    signal.signal(signal.SIGTERM, _interrupt)
    try:
        source = Source(args.folder.absolute(), is_locked=not args.unlocked, names_in=args.names)
        with served(source, args.port) as server:
            if server.browser.past is None:
                print("the store is in use: its page says so until it can be copied", file=sys.stderr)
            print(f"http://{ADDRESS}:{server.server_port}/", flush=True)
            server.serve_forever()
    except KeyboardInterrupt:
        return 0
    except (timestore.Refused, copying.NeedsLock) as why:
        print(f"timestore-browse: {args.folder}: {why}", file=sys.stderr)
    except OSError as why:
        is_missing = isinstance(why, FileNotFoundError) and args.folder.is_dir()
        print(f"timestore-browse: {args.folder}: {'not a store' if is_missing else why.strerror}", file=sys.stderr)
    return 1
