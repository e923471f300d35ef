"""One process has the register open and serves the commands of all others, over a socket beside its folder.

A request is a line of JSON, the arguments of a command. The answer is a line for each line that is told, as it
comes: `["line", TEXT]`; and at the end `["done"]`, or `["refused", REASON]`.
"""

import argparse
import json
import os
import socket
import socketserver
from collections.abc import Iterable, Iterator
from typing import cast

import timestore

from .commands import COMMANDS, reason
from .office import Office
from .schema import Refusal

CONNECT_SECONDS = 2.0
PATH_BYTES = 108  # of a socket, with the zero at its end


def socket_of(register: str) -> str | None:
    """Where the socket of a register is; None where the path would be too long for one."""
    path = os.path.normpath(register) + ".desk"
    return path if len(os.fsencode(path)) < PATH_BYTES else None


class _Server(socketserver.ThreadingUnixStreamServer):
    daemon_threads = False
    block_on_close = True

    def __init__(self, path: str, office: Office) -> None:
        self.office = office
        super().__init__(path, _Handler)


class _Handler(socketserver.StreamRequestHandler):
    """Serves one command."""

    def handle(self) -> None:
        args = argparse.Namespace(**json.loads(self.rfile.readline()))
        try:
            if args.command not in COMMANDS:
                raise Refusal(f"{args.command!r} is not served")
            for line in COMMANDS[args.command](cast(_Server, self.server).office, args):
                self._tell("line", line)
            self._tell("done")
        except BrokenPipeError:
            pass  # who asked has gone; what was entered stays
        except (Refusal, timestore.Refused, OSError) as why:
            self._tell("refused", reason(why, args.register))

    def _tell(self, *answer: str) -> None:
        self.wfile.write(json.dumps(answer).encode() + b"\n")


def serve(register: str) -> Iterator[str]:
    """Serves a register until it is interrupted."""
    path = socket_of(register)
    if path is None:
        raise Refusal(f"{register} is too long a path to be served: go to the folder that it is in, and name it from there")
    with Office(register) as office:
        # (who has the store open is the only one who serves: what stands there was left by one that was killed)
        if os.path.exists(path):
            os.unlink(path)
        before = os.umask(0o077)
        try:
            server = _Server(path, office)
        finally:
            os.umask(before)
        with server:
            yield f"{register} is served at {path}"
            try:
                server.serve_forever()
            except KeyboardInterrupt:
                yield "ended"
            finally:
                os.unlink(path)


def _connected(path: str) -> socket.socket | None:
    """The connection to who serves, None where nobody does."""
    line = socket.socket(socket.AF_UNIX)
    line.settimeout(CONNECT_SECONDS)
    try:
        line.connect(path)
    except (FileNotFoundError, ConnectionRefusedError):
        line.close()
        return None
    line.settimeout(None)
    return line


def _answers(file: Iterable[bytes]) -> Iterator[str]:
    for text in file:
        kind, *rest = json.loads(text)
        if kind == "refused":
            raise Refusal(rest[0])
        if kind == "done":
            return
        yield rest[0]
    raise Refusal("who serves the register has ended: see in the journal whether the entry was made")


def ask(args: argparse.Namespace) -> Iterator[str] | None:
    """What who serves the register answers to a command; None where nobody serves it."""
    path = socket_of(args.register)
    line = _connected(path) if path else None
    return _asked(line, args) if line else None


def _asked(line: socket.socket, args: argparse.Namespace) -> Iterator[str]:
    with line, line.makefile("rwb") as file:
        file.write(json.dumps(vars(args)).encode() + b"\n")
        file.flush()
        yield from _answers(file)
