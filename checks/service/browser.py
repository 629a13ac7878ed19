#!/usr/bin/env python3
"""Has a browser's page of another origin use the symbol server of examples/symbol-server, and compares what it shows.

Usage: browser.py PROGRAM [CHROMIUM]

PROGRAM is a built pdb_symbolizer. CHROMIUM is `chromium` if not given (Debian's package chromium). The server answers
for a copy of shapes.pdb. A second server, at another port and so of another origin, has a page with a script.

The script posts a request three times: as profiler.firefox.com does, as JSON, and as JSON over several lines. Before
JSON, a browser asks by OPTIONS for permission. The page must show the answer of a `pdb_symbolizer --symbolicate` alone
three times. A fourth request is invalid, and the page must show the reason. If the server allows only another origin,
the page must show nothing.
"""
import html
import http.server
import json
import pathlib
import re
import shutil
import subprocess
import sys
import tempfile
import threading

from servers import SymbolServer
from stores import SHAPES, SHAPES_REQUEST, alone, report

SECONDS = 120
PAGE = """<!DOCTYPE html><meta charset="utf-8"><title>Another origin</title>
<script>
const asked = %s;
async function ask(number) {
  const [type, body] = asked[number];
  const shown = document.getElementById("answer" + number);
  try {
    const headers = {"Content-Type": type};
    const answer = await fetch("%s/symbolicate/v5", {method: "POST", mode: "cors", body, headers});
    shown.textContent = answer.status + " " + await answer.text();
  } catch (error) {
    shown.textContent = error.name;
  }
}
addEventListener("load", async () => { for (const number in asked) await ask(number); });
</script>
%s
"""
TEXT, JSON = "text/plain;charset=UTF-8", "application/json"
INVALID = '{"memoryMap":[],"stacks":[[[0,1]]]}'


class Page(http.server.BaseHTTPRequestHandler):
    """Serves the page of the other origin."""

    def do_GET(self):
        self.send_response(200 if self.path == "/" else 404)
        self.send_header("Content-Type", "text/html")
        self.end_headers()
        self.wfile.write(self.server.page if self.path == "/" else b"")

    def log_message(self, *_):
        """Logs nothing."""


def shown_by(chromium, server, asked, folder):
    """Returns what a page shows after it posted each of these requests, which are pairs of type and body."""
    places = "".join(f'<pre id="answer{number}"></pre>' for number in range(len(asked)))
    with http.server.ThreadingHTTPServer(("127.0.0.1", 0), Page) as other:
        other.page = (PAGE % (json.dumps(asked), server.address, places)).encode()
        threading.Thread(target=other.serve_forever, daemon=True).start()
        words = [chromium, "--headless", "--no-sandbox", "--disable-gpu", "--disable-dev-shm-usage",
                 f"--user-data-dir={folder}", "--virtual-time-budget=20000", "--dump-dom",
                 f"http://127.0.0.1:{other.server_port}/"]
        run = subprocess.run(words, stdout=subprocess.PIPE, stderr=subprocess.DEVNULL, timeout=SECONDS)
        other.shutdown()
    found = re.findall(r'<pre id="answer\d+">(.*?)</pre>', run.stdout.decode(), re.DOTALL)
    return [html.unescape(text) for text in found]


def faults_of(program, chromium, folder):
    store = folder / "symbols"
    store.mkdir()
    shutil.copy(SHAPES, store)
    text, lines = json.dumps(SHAPES_REQUEST), json.dumps(SHAPES_REQUEST, indent=2)
    asked = [(TEXT, text), (JSON, text), (JSON, lines), (JSON, INVALID)]
    wanted = [f"200 {alone(program, store, text.encode()).decode()}"] * 3
    wanted += [f"400 {alone(program, store, INVALID.encode()).decode()}"]
    with SymbolServer(program, store) as server:
        shown = shown_by(chromium, server, asked, folder / "profile")
    print("\n".join(line.rstrip() for line in shown))
    faults = [f"shown is {one!r}, wanted {other!r}" for one, other in zip(shown, wanted) if one != other]
    if len(shown) != len(wanted):
        faults.append(f"{len(shown)} answers shown")
    if '"OPTIONS /symbolicate/v5 HTTP/1.1" 204' not in server.log:
        faults.append("the browser didn't ask by OPTIONS")
    with SymbolServer(program, store, "--origin", "https://profiler.firefox.com") as server:
        shown = shown_by(chromium, server, asked[:2], folder / "profile")
    print("with another --origin:", " ".join(shown))
    return faults + ([] if shown == ["TypeError"] * 2 else [f"shown with another origin: {shown}"])


def main(program, chromium="chromium"):
    with tempfile.TemporaryDirectory(ignore_cleanup_errors=True) as folder:
        return report(faults_of(str(pathlib.Path(program).resolve()), chromium, pathlib.Path(folder).resolve()))


if __name__ == "__main__":
    if len(sys.argv) not in (2, 3):
        sys.exit(__doc__)
    sys.exit(main(*sys.argv[1:]))
