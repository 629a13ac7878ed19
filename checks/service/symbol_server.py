#!/usr/bin/env python3
"""Sends requests to the symbol server of examples/symbol-server without a browser, and reports every wrong answer.

Usage: symbol_server.py PROGRAM [CLIENTS]

PROGRAM is a built pdb_symbolizer. CLIENTS clients (8) send requests at the same time, each request over a new
connection. Each answer must be that of a `pdb_symbolizer --symbolicate` alone, byte for byte. Further requests are
invalid, of the greatest length, too long, or cut. Then the script kills the server's pdb_symbolizer, and last it ends
the server during an answer.
"""
import concurrent.futures
import json
import os
import pathlib
import shutil
import signal
import socket
import sys
import tempfile
import time

from servers import SECONDS, SymbolServer
from stores import SHAPES, SHAPES_REQUEST, alone, report

LONGEST = 16777216
MODULES = SHAPES_REQUEST["memoryMap"]
EACH = 10


def request(*offsets):
    """Returns the text of a request for offsets in shapes.pdb."""
    return json.dumps({"memoryMap": MODULES, "stacks": [[[0, offset] for offset in offsets]]}).encode()


def padded(length):
    """Returns the text of a request with this length. A member that is ignored fills it up."""
    text = json.dumps(SHAPES_REQUEST, separators=(",", ":"))[:-1] + ',"more":"'
    return (text + "x" * (length - len(text) - 2) + '"}').encode()


def differences(answers, wanted):
    """Returns the answers that are not the expected ones."""
    return [f"{what}: {answers[what][0]} {answers[what][1][:200]!r}"
            for what in wanted if answers[what] != wanted[what]]


def clients_at_once(program, store, server, clients):
    """Checks many clients at the same time."""
    wanted = {offset: (200, alone(program, store, request(offset))) for offset in range(0x1000, 0x1290, 0x40)}

    def ask(number):
        return [(offset, server.post(request(offset))) for offset in (sorted(wanted) * EACH)[number:number + EACH]]

    with concurrent.futures.ThreadPoolExecutor(clients) as pool:
        answers = [answer for each in pool.map(ask, range(clients)) for answer in each]
    print(f"{len(answers)} answers to {clients} clients at once")
    return [f"offset {offset:#x}: {answer}" for offset, answer in answers if answer != wanted[offset]]


def kinds_of_requests(program, store, server):
    """Checks one request of each kind."""
    good = alone(program, store, json.dumps(SHAPES_REQUEST).encode())
    too_long = (413, b'{"error": "a request longer than 16777216 bytes"}\n')
    no_json = (400, b'{"error": "not a JSON text"}\n')
    wide = json.dumps({**SHAPES_REQUEST, "more": "\u00e9" * (LONGEST // 4)}, ensure_ascii=False).encode()
    elsewhere = b'{"error": "POST /symbolicate/v5 only"}\n'
    asked = {
        "over several lines": (json.dumps(SHAPES_REQUEST, indent=1).encode(), (200, good)),
        "with line ends of DOS": (json.dumps(SHAPES_REQUEST, indent=1).replace("\n", "\r\n").encode(), (200, good)),
        "as long as may be": (padded(LONGEST - 1), (200, good)),
        "too long by a byte": (padded(LONGEST), too_long),
        "far too long": (padded(3 * LONGEST), too_long),
        "too long on one line": (wide, too_long),
        "empty": (b"", no_json),
        "cut": (request(1)[:-1], no_json),
        "nested deep": (b"[" * 100_000 + b"]" * 100_000, no_json),
        "without stacks": (b'{"memoryMap":[]}', (400, alone(program, store, b'{"memoryMap":[]}'))),
    }
    answers = {what: server.post(body) for what, (body, _) in asked.items()}
    wanted = {what: answer for what, (_, answer) in asked.items()}
    answers["another path"], wanted["another path"] = server.post(request(1), "/symbolicate/v6"), (404, elsewhere)
    answers["GET"], wanted["GET"] = server.post(None, method="GET"), (405, elsewhere)
    answers["after all"], wanted["after all"] = server.post(json.dumps(SHAPES_REQUEST).encode()), (200, good)
    print(f"{len(wanted)} kinds of requests")
    return differences(answers, wanted)


def clients_that_stop(server):
    """Checks that others don't wait for a client that announces more than it sends, or for one that sends nothing."""
    before = server.post(request(4406))
    with socket.create_connection(("127.0.0.1", server.port)) as half, \
            socket.create_connection(("127.0.0.1", server.port)):
        half.sendall(b"POST /symbolicate/v5 HTTP/1.1\r\nHost: x\r\nContent-Length: 100\r\n\r\n{")
        time.sleep(0.2)
        after = server.post(request(4406))
    return [] if before == after and after[0] == 200 else [f"beside clients that stop: {after}"]


def killed_process(server):
    """Checks that after the server's pdb_symbolizer is killed, a new one answers."""
    before, children = server.post(request(4406)), server.child()
    for child in children:
        os.kill(child, signal.SIGKILL)
    after, others = server.post(request(4406)), server.child()
    print(f"process {children} was killed, {others} answers")
    right = before == after and after[0] == 200 and len(children) == len(others) == 1 and children != others
    return [] if right else [f"after the process was killed: {after}, {children}, {others}"]


def no_process(store):
    """Checks that the answer is 502, each time, if the program ends at once."""
    with SymbolServer("/bin/true", store) as server:
        answers = [server.post(request(4406)) for _ in range(3)]
    right = answers == [(502, b'{"error": "pdb_symbolizer ended"}\n')] * 3 and server.status == 0
    return [] if right else [f"with a program that ends at once: {answers}, status {server.status}"]


def slow_request(program, store):
    """Returns a request that takes half a second or more, and its answer."""
    frames, seconds = 1000, 0
    while seconds < 0.5 and frames < 1_000_000:
        frames *= 2
        body = json.dumps({"memoryMap": MODULES, "stacks": [[[0, 4406]] * frames]}, separators=(",", ":")).encode()
        start = time.monotonic()
        answer = alone(program, store, body)
        seconds = time.monotonic() - start
    return body, answer


def ended_while_answering(program, store):
    """Checks SIGTERM during an answer: the server still sends the answer, and then the server and its process end."""
    body, wanted = slow_request(program, store)
    with SymbolServer(program, store) as server, concurrent.futures.ThreadPoolExecutor(1) as pool:
        children, asked = server.child(), pool.submit(server.post, body)
        time.sleep(0.25)
        answering = not asked.done()
        server.process.send_signal(signal.SIGTERM)
        answer = asked.result(SECONDS)
        server.process.wait(SECONDS)
    left = [child for child in children if pathlib.Path(f"/proc/{child}").exists()]
    print(f"SIGTERM {'before' if answering else 'after'} the answer of {len(wanted)} bytes: status {server.status}")
    right = answer == (200, wanted) and server.status == 0 and not left and len(children) == 1
    return [] if right else [f"ended while answering: {answer[0]}, status {server.status}, left {left}"]


def faults_of(program, store, clients):
    with SymbolServer(program, store) as server:
        faults = clients_at_once(program, store, server, clients)
        faults += kinds_of_requests(program, store, server)
        faults += clients_that_stop(server) + killed_process(server)
    if server.status:
        faults.append(f"the server ended with status {server.status}")
    return faults + no_process(store) + ended_while_answering(program, store)


def main(program, clients="8"):
    with tempfile.TemporaryDirectory() as folder:
        shutil.copy(SHAPES, folder)
        return report(faults_of(str(pathlib.Path(program).resolve()), folder, int(clients)))


if __name__ == "__main__":
    if len(sys.argv) not in (2, 3):
        sys.exit(__doc__)
    sys.exit(main(*sys.argv[1:]))
