#!/usr/bin/env python3
"""Answers requests of Mozilla's symbolication API over HTTP, from the PDB files in folders.

Usage: server.py [--port PORT] [--host HOST] [--origin ORIGIN] [--program PROGRAM] DIR .. [-- OPTION ..]

One process `PROGRAM --symbolicate-lines --pdb-dir DIR OPTION ..` answers all requests to POST /symbolicate/v5.

  - PROGRAM is pdb_symbolizer if not given.
  - PORT is 3456 if not given. With 0, the system chooses a port.
  - Only pages of ORIGIN may read answers. If it isn't given, pages of any origin may.
  - HOST is 127.0.0.1 if not given, which only programs on this machine can reach.

The server prints its address when it is ready. SIGTERM and SIGINT end the server and the process.
"""
import argparse
import json
import signal
import subprocess
import sys
import threading
from http import HTTPStatus
from http.server import BaseHTTPRequestHandler, ThreadingHTTPServer

PATH = "/symbolicate/v5"
# The longest line that pdb_symbolizer accepts, in bytes, with its line end.
LONGEST = 16777216
# The most bytes that are read of a request that is too long, before the connection is closed.
MOST_SKIPPED = 16 * LONGEST
MOST_DIGITS = 18
# The seconds that a client may be silent, and those that the server waits at its end for open requests and for the
# process.
SECONDS = 60
SECONDS_AT_END = 10


class Ended(Exception):
    """The process ended before it answered."""


class Symbolizer:
    """A process that answers requests, one line each. Threads may share it, because a lock lets one request through at
    a time."""

    def __init__(self, words):
        self._words, self._lock, self._closed = words, threading.Lock(), False
        self._process = self._started()

    def answer(self, line):
        """Returns the answer to a line. If the process ends first, a new one gets the line once more."""
        with self._lock:
            try:
                return self._ask(line)
            except Ended:
                return self._ask(line)

    def close(self):
        """Ends the process, after its current request."""
        self._closed = True
        if self._lock.acquire(timeout=SECONDS_AT_END):
            self._end()
        elif self._process:
            self._process.kill()

    def _started(self):
        return subprocess.Popen(self._words, stdin=subprocess.PIPE, stdout=subprocess.PIPE, start_new_session=True)

    def _ask(self, line):
        if self._closed:
            raise Ended
        self._process = self._process or self._started()
        try:
            self._process.stdin.write(line)
            self._process.stdin.flush()
            answer = self._process.stdout.readline()
        except BrokenPipeError:
            answer = b""
        if not answer.endswith(b"\n"):
            self._end()
            raise Ended
        return answer

    def _end(self):
        process, self._process = self._process, None
        if not process:
            return
        try:
            process.stdin.close()
        except BrokenPipeError:
            pass
        try:
            process.wait(SECONDS_AT_END)
        except subprocess.TimeoutExpired:
            process.kill()
            process.wait()
        process.stdout.close()


class Handler(BaseHTTPRequestHandler):
    """Answers the requests of one connection."""

    protocol_version = "HTTP/1.1"
    server_version = "limberlime"
    timeout = SECONDS

    def do_OPTIONS(self):
        """Says that pages of another origin may post. A browser asks this first."""
        self.send_response(HTTPStatus.NO_CONTENT)
        self.send_header("Access-Control-Allow-Methods", "POST, OPTIONS")
        self.send_header("Access-Control-Allow-Headers", "Content-Type")
        self.send_header("Access-Control-Max-Age", "3600")
        self.end_headers()

    def do_GET(self):
        """Refuses GET, because there is nothing to get."""
        self.refuse(HTTPStatus.METHOD_NOT_ALLOWED if self.path == PATH else HTTPStatus.NOT_FOUND, f"POST {PATH} only")

    def do_POST(self):
        """Answers a request."""
        with self.server.answering():
            length = self.headers.get("Content-Length", "")
            if not length.isdecimal() or len(length) > MOST_DIGITS:
                self.refuse(HTTPStatus.LENGTH_REQUIRED, "a request needs its Content-Length", close=True)
            elif int(length) >= LONGEST:
                self.skip(int(length))
                self.refuse_as_too_long(close=True)
            else:
                self.answer(self.rfile.read(int(length)))

    def answer(self, body):
        """Answers the body of a request."""
        if self.path != PATH:
            return self.refuse(HTTPStatus.NOT_FOUND, f"POST {PATH} only")
        try:
            line = json.dumps(json.loads(body), separators=(",", ":")).encode() + b"\n"
        except (ValueError, RecursionError):
            return self.refuse(HTTPStatus.BAD_REQUEST, "not a JSON text")
        if len(line) > LONGEST:
            return self.refuse_as_too_long()
        try:
            answer = self.server.symbolizer.answer(line)
        except (Ended, OSError):
            return self.refuse(HTTPStatus.BAD_GATEWAY, "pdb_symbolizer ended")
        return self.send(HTTPStatus.BAD_REQUEST if answer.startswith(b'{"error":') else HTTPStatus.OK, answer)

    def skip(self, length):
        """Reads a body that is too long, so that the client gets to read the reason."""
        left = min(length, MOST_SKIPPED)
        while left and (piece := self.rfile.read(min(left, 1 << 16))):
            left -= len(piece)

    def refuse_as_too_long(self, close=False):
        """Refuses a request that is too long."""
        self.refuse(HTTPStatus.REQUEST_ENTITY_TOO_LARGE, f"a request longer than {LONGEST} bytes", close)

    def refuse(self, status, reason, close=False):
        """Answers with a reason, in the form of pdb_symbolizer."""
        self.send(status, json.dumps({"error": reason}).encode() + b"\n", close)

    def send(self, status, text, close=False):
        """Sends a JSON text."""
        self.send_response(status)
        self.send_header("Content-Type", "application/json")
        self.send_header("Content-Length", str(len(text)))
        if close:
            self.send_header("Connection", "close")
        self.end_headers()
        self.wfile.write(text)

    def end_headers(self):
        """Lets the origin's pages read every answer."""
        self.send_header("Access-Control-Allow-Origin", self.server.origin)
        super().end_headers()


class Server(ThreadingHTTPServer):
    """A server with a thread for each connection, and one process for all of them."""

    request_queue_size = 128

    def __init__(self, address, symbolizer, origin):
        super().__init__(address, Handler)
        self.symbolizer, self.origin = symbolizer, origin
        self._count, self._changed = 0, threading.Condition()

    def answering(self):
        """Returns a context manager to hold while a request is answered."""
        return Answering(self)

    def change(self, number):
        """Counts the open requests."""
        with self._changed:
            self._count += number
            self._changed.notify_all()

    def finish(self):
        """Waits for the open requests."""
        with self._changed:
            self._changed.wait_for(lambda: not self._count, SECONDS_AT_END)

    def handle_error(self, request, client_address):
        """Ignores clients that close the connection."""
        if not isinstance(sys.exc_info()[1], OSError):
            super().handle_error(request, client_address)


class Answering:
    """Counts a request while it is answered."""

    def __init__(self, server):
        self._server = server

    def __enter__(self):
        self._server.change(1)

    def __exit__(self, *_):
        self._server.change(-1)


def arguments():
    words = sys.argv[1:]
    at = words.index("--") if "--" in words else len(words)
    parser = argparse.ArgumentParser(description=__doc__, formatter_class=argparse.RawDescriptionHelpFormatter,
                                     usage=argparse.SUPPRESS)
    parser.add_argument("--port", type=int, default=3456)
    parser.add_argument("--host", default="127.0.0.1")
    parser.add_argument("--origin", default="*")
    parser.add_argument("--program", default="pdb_symbolizer")
    parser.add_argument("folders", metavar="DIR", nargs="+")
    given = parser.parse_args(words[:at])
    given.options = words[at + 1:]
    return given


def stop(*_):
    """Ends the main thread's loop."""
    raise KeyboardInterrupt


def serve(given, symbolizer):
    """Answers requests until a signal comes, and finishes the open ones."""
    with Server((given.host, given.port), symbolizer, given.origin) as server:
        print(f"http://{given.host}:{server.server_port}", flush=True)
        try:
            server.serve_forever()
        except KeyboardInterrupt:
            signal.signal(signal.SIGTERM, signal.SIG_IGN)
        server.finish()


def main():
    given = arguments()
    words = [given.program, "--symbolicate-lines", *given.options]
    for folder in given.folders:
        words += ["--pdb-dir", folder]
    signal.signal(signal.SIGTERM, stop)
    try:
        symbolizer = Symbolizer(words)
        try:
            serve(given, symbolizer)
        finally:
            symbolizer.close()
    except OSError as error:
        sys.exit(f"server.py: {error}")


if __name__ == "__main__":
    main()
