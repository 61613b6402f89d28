#!/usr/bin/env python3
"""Takes a picture of the status page of a cluster, one of whose three members was killed while a fourth node enters:
look_picture.py PROGRAM PICTURE [WIDTH,HEIGHT]

Node 3 is killed and taken for absent before the picture is taken, and the others store meanwhile. Node 4 enters then,
and goes on entering, since all four would have to answer it. It needs Chromium, takes two and a half minutes, and ends
all that it started.
"""
import http.server
import os
import pathlib
import shutil
import subprocess
import sys
import tempfile
import threading
import time
import urllib.error
import urllib.request

import nodes
from look import WatchedCluster, store_values
from nodes import LOOPBACK, cluster_words, say

BROWSERS = ["chromium", "chromium-browser", "google-chrome", "chrome"]
SIZE = "1400,1120"
# A picture of less is one of nothing.
LEAST_BYTES, MOST_BYTES = 40_000, 200_000
# The members at the start, and who enters.
MEMBERS, ENTRANT = range(1, 4), 4
BETA = "2/3"
# For how long the charts are filled with all nodes, and how long node 3 is away then.
FILLED, AWAY = 105.0, 12.0
PATIENCE = 30.0
# A browser takes its picture once all of a page is loaded. So what it shows waits for an image, which comes in time.
HELD = b'<img src="/held" alt="" width="0" height="0"></body>'


class Front(http.server.ThreadingHTTPServer):
    """Stands before a status page, and holds the picture back until it is let go."""

    daemon_threads = True

    def __init__(self, address):
        super().__init__((LOOPBACK, 0), FrontRequest)
        self.page = f"http://{address[0]}:{address[1]}"
        self.may_go = threading.Event()
        threading.Thread(target=self.serve_forever, daemon=True).start()

    def url(self):
        return f"http://{LOOPBACK}:{self.server_address[1]}/"


class FrontRequest(http.server.BaseHTTPRequestHandler):
    def do_GET(self):
        if self.path == "/held":
            self.server.may_go.wait(FILLED + AWAY + 2 * PATIENCE)
            return self.answer(204, "image/gif", b"")
        try:
            with urllib.request.urlopen(self.server.page + self.path, timeout=PATIENCE) as answer:
                body, form = answer.read(), answer.headers["Content-Type"]
        except urllib.error.URLError as why:
            return self.answer(502, "text/plain", str(why).encode())
        self.answer(200, form, body.replace(b"</body>", HELD) if self.path == "/" else body)

    def answer(self, status, form, body):
        self.send_response(status)
        self.send_header("Content-Type", form)
        self.send_header("Content-Length", str(len(body)))
        self.end_headers()
        self.wfile.write(body)

    def log_message(self, *_):
        pass


def browser():
    found = next(filter(None, map(shutil.which, BROWSERS)), None)
    return found or sys.exit(f"no browser: one of {', '.join(BROWSERS)}")


class GrowingCluster(WatchedCluster):
    """A cluster of which the last node is formatted to enter."""

    def format_all(self):
        everyone, self.nodes = self.nodes, MEMBERS
        super().format_all()
        self.nodes = everyone
        (self.folder / f"node-{ENTRANT}").mkdir()
        contacts = ",".join(map(str, MEMBERS))
        words = ["format", f"node-{ENTRANT}", str(ENTRANT), "--contacts", contacts, "--beta", BETA, *cluster_words(self.name)]
        subprocess.run([self.program, *words], cwd=self.folder, check=True, capture_output=True)

    def start_members(self):
        """Starts the members, and waits until each has answered a collect."""
        for node in MEMBERS:
            self.start(node)
        for node in MEMBERS:
            nodes.Session(self.address(node), 900_000 + node).ask(["collect"], PATIENCE)


def browser_words(program, url, picture, folder, size):
    words = [program, "--headless=new", "--disable-gpu", "--hide-scrollbars", "--no-first-run", f"--user-data-dir={folder}"]
    words += ["--no-sandbox"] if os.geteuid() == 0 else []
    return [*words, f"--window-size={size}", f"--screenshot={picture}", url]


def take_picture(address, picture, size, prepare):
    """Takes a picture of the page at that address, as it looks once `prepare` has returned."""
    front, program = Front(address), browser()
    with tempfile.TemporaryDirectory(prefix="look-", ignore_cleanup_errors=True) as folder:
        words = browser_words(program, front.url(), picture, folder, size)
        taking = subprocess.Popen(words, stdout=subprocess.DEVNULL, stderr=subprocess.DEVNULL)
        try:
            prepare()
            front.may_go.set()
            taking.wait(PATIENCE)
        finally:
            taking.kill()
            taking.wait()
            front.shutdown()


def wait_until(holds, what):
    """Waits until node 1 shows that. How long it took."""
    begun = time.monotonic()
    while not holds():
        if time.monotonic() - begun > PATIENCE:
            sys.exit(f"it isn't shown that {what}")
        time.sleep(0.2)
    say(f"{what} after {time.monotonic() - begun:.1f} s")
    return time.monotonic() - begun


def lose_node(cluster, node):
    """Kills a node, and waits until node 1 takes it for absent."""
    cluster.kill(node)
    return wait_until(
        lambda: any(it["id"] == node and it["absent_since"] is not None for it in cluster.status(1)["peers"]),
        f"node {node} is taken for absent",
    )


def let_in(cluster, node):
    """Starts a node that enters, and waits until node 1 shows it as present."""
    cluster.start(node)
    return wait_until(lambda: node in cluster.status(1)["present"], f"node {node} enters")


def main(program, picture, size=SIZE):
    picture = pathlib.Path(picture).resolve()
    picture.unlink(missing_ok=True)
    with GrowingCluster(program, ENTRANT, beta=BETA) as cluster:
        cluster.start_members()
        store_values(cluster)
        load = nodes.Load(cluster, [1, 2], 2)

        def prepare():
            time.sleep(FILLED)
            waited = lose_node(cluster, 3) + let_in(cluster, ENTRANT)
            time.sleep(max(0.0, AWAY - waited))

        take_picture(cluster.page_address(1), picture, size, prepare)
        load.end()
    size = picture.stat().st_size if picture.exists() else 0
    if not LEAST_BYTES < size < MOST_BYTES:
        sys.exit(f"the picture has {size} bytes")
    say(f"{picture}: {size} bytes")


if __name__ == "__main__":
    if len(sys.argv) not in (3, 4):
        sys.exit(__doc__)
    nodes.end_on_signals()
    main(*sys.argv[1:])
