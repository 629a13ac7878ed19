"""Starts and ends the symbol server of examples/symbol-server, for the checks in this folder."""
import http.client
import pathlib
import signal
import subprocess
import sys
import tempfile

SERVER = pathlib.Path(__file__).resolve().parents[2] / "examples" / "symbol-server" / "server.py"
SECONDS = 60


class SymbolServer:
    """A server over a folder, on a port that the system chose. After its end, `log` has the standard error of the
    server and of its pdb_symbolizer, and `status` has its exit status."""

    def __init__(self, program, store, *options):
        self._words = [sys.executable, str(SERVER), "--port", "0", "--program", str(program), *options, str(store)]
        self.log, self.status = "", None

    def __enter__(self):
        self._log = tempfile.TemporaryFile()
        self.process = subprocess.Popen(self._words, stdout=subprocess.PIPE, stderr=self._log)
        self.address = self.process.stdout.readline().decode().strip()
        self.port = int(self.address.rsplit(":", 1)[1])
        return self

    def __exit__(self, *_):
        self.process.send_signal(signal.SIGTERM)
        self.status = self.process.wait(SECONDS)
        self.process.stdout.close()
        self._log.seek(0)
        self.log = self._log.read().decode()
        self._log.close()

    def child(self):
        """Returns the ids of the server's child processes."""
        found = pathlib.Path(f"/proc/{self.process.pid}/task").glob("*/children")
        return [int(word) for path in found for word in path.read_text().split()]

    def post(self, body, path="/symbolicate/v5", method="POST", headers=None):
        """Returns the status and the body of an answer, over a new connection."""
        connection = http.client.HTTPConnection("127.0.0.1", self.port, timeout=SECONDS)
        try:
            connection.request(method, path, body, headers or {})
            answer = connection.getresponse()
            return answer.status, answer.read()
        finally:
            connection.close()
