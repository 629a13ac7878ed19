#!/usr/bin/env python3
"""Has GNU parallel answer requests on all processors and on two hosts, and compares the answers with those of one
process.

Usage: parallel.py PROGRAM [--requests N] [--frames N] [--files N] [--seed N] [--jobs N] [--block SIZE] [--one-host]

PROGRAM is a built pdb_symbolizer. The script makes 2,000 requests of 50 frames over 200 PDB files. `parallel --pipe -k`
passes them in blocks of 100k to one job per processor. Then it does so on two hosts by ssh. The hosts are two sshd that
this script starts at ports of the loopback interface, with keys and settings in a temporary folder. The script prints
the exact commands and the times. The answers must be those of one process, byte for byte and in order. Both hosts must
have had jobs. The script needs Debian's packages parallel and, without --one-host, openssh-server.
"""
import argparse
import contextlib
import getpass
import os
import pathlib
import shlex
import socket
import subprocess
import sys
import tempfile
import time
from collections import Counter

from stores import make_store, report, write_requests

SSHD = "/usr/sbin/sshd"
SECONDS = 20
SERVER_SETTINGS = """ListenAddress 127.0.0.1
Port {port}
HostKey {folder}/host_key
AuthorizedKeysFile {folder}/user_key.pub
PidFile none
StrictModes no
UsePAM no
PasswordAuthentication no
PermitRootLogin prohibit-password
MaxStartups 100
"""
CLIENT_SETTINGS = """Host {name}
HostName 127.0.0.1
Port {port}
User {user}
IdentityFile {folder}/user_key
IdentitiesOnly yes
UserKnownHostsFile {folder}/known_hosts
StrictHostKeyChecking accept-new
LogLevel ERROR
"""


def arguments():
    parser = argparse.ArgumentParser(usage=__doc__.split("Usage: ")[1].split("\n\n")[0])
    parser.add_argument("program", type=os.path.abspath)
    for name, value in (("requests", 2000), ("frames", 50), ("files", 200), ("seed", 1), ("jobs", os.cpu_count())):
        parser.add_argument(f"--{name}", type=int, default=value)
    parser.add_argument("--block", default="100k")
    parser.add_argument("--one-host", action="store_true")
    return parser.parse_args()


def free_port():
    """Returns a port on which nothing listens."""
    with socket.create_server(("127.0.0.1", 0)) as server:
        return server.getsockname()[1]


def wait_for(port):
    """Waits until something listens on a port."""
    end = time.monotonic() + SECONDS
    while True:
        try:
            return socket.create_connection(("127.0.0.1", port)).close()
        except ConnectionRefusedError:
            if time.monotonic() > end:
                raise
            time.sleep(0.1)


@contextlib.contextmanager
def hosts(folder, names):
    """Runs an sshd for each host. Yields the settings file by which ssh finds them."""
    for key in ("host_key", "user_key"):
        subprocess.run(["ssh-keygen", "-q", "-t", "ed25519", "-N", "", "-f", folder / key], check=True)
    if os.geteuid() == 0:
        os.makedirs("/run/sshd", mode=0o755, exist_ok=True)
    settings, servers = folder / "ssh_config", []
    try:
        for name in names:
            port = free_port()
            (folder / name).write_text(SERVER_SETTINGS.format(folder=folder, port=port))
            with open(settings, "a") as file:
                file.write(CLIENT_SETTINGS.format(folder=folder, name=name, port=port, user=getpass.getuser()))
            servers.append(subprocess.Popen([SSHD, "-D", "-e", "-f", folder / name], stderr=subprocess.DEVNULL))
            wait_for(port)
        yield settings
    finally:
        for server in servers:
            server.terminate()
            server.wait()


def timed(words, path, answers):
    """Runs a command over the requests, and prints it with its time. Returns its exit status."""
    print(f"{shlex.join(words)} <{path} >{answers}")
    start = time.monotonic()
    with open(path, "rb") as file, open(answers, "wb") as out:
        status = subprocess.run(words, stdin=file, stdout=out).returncode
    print(f"    {time.monotonic() - start:.1f} s")
    return status


def differences(what, status, wanted, answers):
    """Returns a message if the answers are not those of one process."""
    found = answers.read_bytes()
    same = [one == other for one, other in zip(found.splitlines(), wanted.splitlines())]
    if found == wanted and status == 0:
        return []
    return [f"{what}: status {status}, {len(found)} bytes, {same.count(False)} of {len(same)} answers differ"]


def compare(given, folder):
    store, path = folder / "store", folder / "requests"
    write_requests(path, make_store(given.program, store, given.files, given.seed), given.requests, given.frames,
                   given.seed)
    asked = [given.program, "--symbolicate-lines", "--pdb-dir", str(store)]
    faults = [] if timed(asked, path, folder / "wanted") == 0 else ["one process: its status isn't 0"]
    wanted = (folder / "wanted").read_bytes()
    if wanted.count(b"\n") != given.requests:
        faults.append(f"one process: {wanted.count(10)} answers")
    common = ["parallel", "--will-cite", "--pipe", "-k", "--block", given.block]
    status = timed([*common, "-j", str(given.jobs), *asked], path, folder / "answers")
    faults += differences("all processors", status, wanted, folder / "answers")
    if given.one_host:
        return faults
    each = max(given.jobs // 2, 1)
    with hosts(folder, ("one", "two")) as settings:
        words = [*common, "--joblog", str(folder / "log"), "--ssh", f"ssh -F {settings}",
                 "-S", f"{each}/one,{each}/two", *asked]
        status = timed(words, path, folder / "answers")
    faults += differences("two hosts", status, wanted, folder / "answers")
    jobs = Counter(line.split("\t")[1] for line in (folder / "log").read_text().splitlines()[1:])
    print("    jobs: " + ", ".join(f"{name} {jobs[name]}" for name in sorted(jobs)))
    return faults + ([] if set(jobs) == {"one", "two"} else [f"two hosts: jobs ran on {sorted(jobs)}"])


def main():
    given = arguments()
    with tempfile.TemporaryDirectory() as folder:
        return report(compare(given, pathlib.Path(folder).resolve()))


if __name__ == "__main__":
    sys.exit(main())
