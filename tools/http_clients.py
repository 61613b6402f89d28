#!/usr/bin/env python3
"""Asks nodes over HTTP, as RUN, SECURITY and openapi.yaml say that one may, and checks what comes back.

    http_clients.py crates/ccnode/out/ccnode [COUNT [SEED]]

Three nodes, of which two have to answer. The `curl` lines of docs/RUN.md print what the page says. Each request of
docs/openapi.yaml is sent, and each answer is one that it describes. A stream of changes tells each write of another node.
Each limit of a connection is taken to its edge (http_limits.py). COUNT mutated requests (1,000,000) end no node and change
nothing. With two nodes dead requests end with 504 and their sessions go on a second after the nodes are back. And while
the node is killed and started again, writes with a key are done once each, and those without a key once at most. The
status is 1 where something isn't so."""
import http.client
import json
import pathlib
import random
import re
import shlex
import socket
import subprocess
import sys
import threading
import time

import http_limits
import http_rows
from nodes import HERE, LOOPBACK, Cluster, Verdicts, end_on_signals, free_ports, say

PAGE, OPENAPI = HERE.parent / "docs" / "RUN.md", HERE.parent / "docs" / "openapi.yaml"
# How long a request may take after the quorum is back, in seconds.
BACK_WITHIN = 1.0


class WebCluster(Cluster):
    """Nodes that take requests over HTTP too."""

    def __init__(self, *words, **settings):
        super().__init__(*words, **settings)
        self.web = dict(zip(self.nodes, free_ports(len(self.nodes))))

    def run_words(self, node):
        return [*super().run_words(node), "--http", f"{LOOPBACK}:{self.web[node]}"]


class Client:
    """A connection to a node that is kept, and made anew where it ended."""

    def __init__(self, port):
        self.port, self.connection = port, None

    def close(self):
        if self.connection:
            self.connection.close()
        self.connection = None

    def ask(self, method, path, body=None, fields=None, seconds=70):
        """The status, the fields and the body of the response."""
        if not self.connection:
            self.connection = http.client.HTTPConnection(LOOPBACK, self.port, timeout=seconds)
        try:
            self.connection.request(method, path, body, fields or {})
            response = self.connection.getresponse()
            told = response.status, dict(response.getheaders()), response.read()
        except (OSError, http.client.HTTPException):
            self.close()
            raise
        if told[1].get("connection") == "close":
            self.close()
        return told


def row_of(client, node):
    """The row of a node in a view, if it has one."""
    status, _, body = client.ask("GET", "/v1/view")
    return next((row for row in json.loads(body)["rows"] if row["node"] == node), None) if status == 200 else None


def run_lines(verdicts, cluster):
    """The `curl` lines of the page, each with what it prints."""
    text = PAGE.read_text()
    part = text.partition("## Clients that speak HTTP")[2].partition("\n## ")[0]
    lines = re.findall(r"^    \$ (curl .*)\n    (.*)$", part, re.MULTILINE)
    for words, wanted in lines:
        words = shlex.split(words.replace("127.0.0.1:8001", f"{LOOPBACK}:{cluster.web[1]}"))
        told = subprocess.run([*words, "--silent"], capture_output=True, text=True, timeout=30).stdout.strip()
        verdicts.add(told == wanted, f"{' '.join(words)}: {told}")
    verdicts.add(len(lines) > 5, f"{len(lines)} lines of the page")


def fits(schema, value, document):
    """Whether a value is one of a schema: as much of JSON Schema as the page uses."""
    while "$ref" in schema:
        place = document
        for word in schema["$ref"].removeprefix("#/").split("/"):
            place = place[word]
        schema = place
    kinds = {"object": dict, "array": list, "string": str, "integer": int, "boolean": bool}
    if "const" in schema and value != schema["const"]:
        return False
    if "type" in schema and not (isinstance(value, kinds[schema["type"]]) and (schema["type"] != "integer" or value is not True)):
        return False
    if "pattern" in schema and not re.search(schema["pattern"], value):
        return False
    if isinstance(value, dict):
        known = schema.get("properties", {})
        return all(it in value for it in schema.get("required", [])) and all(fits(known.get(k, {}), v, document) for k, v in value.items())
    return not isinstance(value, list) or all(fits(schema.get("items", {}), it, document) for it in value)


def described(document, path, method, told):
    """Whether the document describes a response to that request."""
    status, fields, body = told
    response = document["paths"][path][method].get("responses", {}).get(str(status))
    while response and "$ref" in response:
        response = document["components"]["responses"][response["$ref"].rsplit("/", 1)[1]]
    kind = fields.get("content-type", "").partition(";")[0]
    if not response or kind not in response.get("content", {}):
        return False
    schema = (response["content"][kind] or {}).get("schema")
    return schema is None or not kind.endswith("json") or fits(schema, json.loads(body), document)


def send_all(verdicts, cluster):
    """Each request of the document, and some that are faults."""
    import yaml
    document, client = yaml.safe_load(OPENAPI.read_text()), Client(cluster.web[1])
    bodies = {"/v1/text": "a", "/v1/max": "7", "/v1/set": "5"}
    asked = [(path, method, path.replace("{session}", "7"), bodies.get(path) if method != "get" else None, {})
             for path, methods in document["paths"].items() for method in methods]
    asked += [("/v1/text", "put", "/v1/text", "", {}), ("/v1/text", "put", "/v1/text", "a" * 65, {}),
              ("/v1/text", "put", "/v1/text", "a", {"Content-Type": "application/json"}),
              ("/v1/text", "put", "/v1/text", "a", {"Sec-Fetch-Site": "cross-site"}),
              ("/v1/text", "put", "/v1/text", "a", {"Idempotency-Key": "7/9"}),
              ("/v1/max", "put", "/v1/max?timeout=1", "7", {}), ("/v1/", "get", "/v1/", None, {"Accept": "text/html"})]
    asked += [(path, "get", path.replace("{session}", "7") + query, None, fields)
              for path, methods in document["paths"].items() if "get" in methods
              for query, fields in (("?timeout=1", {}), ("", {"Idempotency-Key": "7/9"}))]
    for path, method, target, body, fields in asked:
        told = client.ask(method.upper(), target, body, fields)
        verdicts.add(described(document, path, method, told), f"{method} {target} {fields}: {told[0]}, as the page says")


BASES = (
    b"GET /v1/view HTTP/1.1\r\nhost: a\r\naccept: */*\r\n\r\n",
    b"GET /v1/max?timeout=5s HTTP/1.1\r\nhost: a\r\nidempotency-key: 7/1\r\n\r\n",
    b"PUT /v1/nowhere HTTP/1.1\r\nhost: a\r\ncontent-length: 3\r\n\r\nabc",
    b"POST /v1/text HTTP/1.1\r\nhost: a\r\ntransfer-encoding: chunked\r\n\r\n3\r\nabc\r\n0\r\n\r\n",
    b"GET /v1/flag HTTP/1.1\r\nhost: a\r\nexpect: 100-continue\r\ncontent-length: 2\r\n\r\nab",
)


def mutated(rng):
    request = bytearray(rng.choice(BASES))
    for _ in range(rng.choice((1, 1, 2, 3))):
        place = rng.randrange(len(request))
        match rng.randrange(4):
            case 0:
                request[place] = rng.randrange(256)
            case 1:
                request.insert(place, rng.randrange(256))
            case 2:
                del request[place]
            case _:
                request[place:place] = request[place : place + rng.randrange(1, 9)]
    return bytes(request)


def send_mutated(port, seed, count, told):
    """Sends requests, each behind the one before while the connection lasts. None of them is a write, by any mutation of so few
    bytes: none of the bases has both the method and the path of one."""
    rng, statuses = random.Random(seed), {}
    for _ in range(count):
        with socket.create_connection((LOOPBACK, port), timeout=5) as connection:
            try:
                connection.sendall(mutated(rng))
                connection.shutdown(socket.SHUT_WR)
                answer = connection.recv(64)
            except OSError:
                answer = b""
        status = answer[9:12].decode("latin-1") or "none"
        statuses[status] = statuses.get(status, 0) + 1
    told.append(statuses)


def mutate_all(verdicts, cluster, count, seed):
    client, told = Client(cluster.web[1]), []
    before = row_of(client, 1)
    start = time.monotonic()
    threads = [threading.Thread(target=send_mutated, args=(cluster.web[1], f"{seed} {it}", count // 4, told)) for it in range(4)]
    for thread in threads:
        thread.start()
    for thread in threads:
        thread.join()
    statuses = {}
    for one in told:
        for status, times in one.items():
            statuses[status] = statuses.get(status, 0) + times
    say(f"{count} mutated requests in {time.monotonic() - start:.0f} s: {dict(sorted(statuses.items()))}")
    client.close()
    verdicts.add(row_of(client, 1) == before, "mutated requests changed nothing")
    verdicts.add(not cluster.has_ended(), "and ended no node")


def threads_of(cluster, node):
    status = pathlib.Path(f"/proc/{cluster.running[node].pid}/status").read_text()
    return int(re.search(r"Threads:\s+(\d+)", status)[1])


def lose_quorum(verdicts, cluster):
    """Nodes 2 and 3 are dead for some seconds."""
    clients, before = [Client(cluster.web[1]) for _ in range(8)], threads_of(cluster, 1)
    for node in (2, 3):
        cluster.kill(node)
    statuses = [client.ask("PUT", "/v1/max?timeout=1s", "1")[0] for client in clients for _ in range(2)]
    verdicts.add(set(statuses) == {504}, f"with a dead quorum: {sorted(set(statuses))}")
    for node in (2, 3):
        cluster.start(node)
    start, status = time.monotonic(), None
    while status != 200 and time.monotonic() < start + 20:
        status = clients[0].ask("PUT", "/v1/max?timeout=500ms", "1")[0]
    took = time.monotonic() - start
    statuses = [client.ask("PUT", "/v1/max", "1")[0] for client in clients for _ in range(9)]
    verdicts.add(set(statuses) == {200}, f"once it is back, after {took:.1f} s, each of {len(statuses)} writes is answered")
    for client in clients:
        client.close()
    time.sleep(2)
    verdicts.add(threads_of(cluster, 1) <= before, f"no thread is left: {before} before, {threads_of(cluster, 1)} now")


def write_with_key(port, session, done, stop):
    """Writes under the keys of a session, each until it is answered."""
    client, request = Client(port), 0
    while not stop.is_set():
        request += 1
        while True:
            try:
                status, _, _ = client.ask("PUT", "/v1/text?timeout=2s", f"{session}.{request}", {"Idempotency-Key": f"{session}/{request}"}, 10)
                if status == 200:
                    break
                if status == 409:
                    done.append(None)
                    return
            except (OSError, http.client.HTTPException):
                time.sleep(0.02)
        done.append(request)
    client.close()


def write_without(port, counts, stop):
    """Writes without a key, each once, whatever comes back."""
    client = Client(port)
    while not stop.is_set():
        counts[0] += 1
        try:
            counts[1] += client.ask("PUT", "/v1/text?timeout=2s", "b", None, 10)[0] == 200
        except (OSError, http.client.HTTPException):
            time.sleep(0.02)
    client.close()


def event_in(told):
    """The id and the view of the event that a response has, if it has one."""
    lines = dict(line.split(": ", 1) for line in told[2].decode().splitlines() if ": " in line)
    return (lines["id"], json.loads(lines["data"])) if "data" in lines else (None, None)


def write_later(port, text, answered):
    time.sleep(0.4)
    client = Client(port)
    if client.ask("PUT", "/v1/text", text)[0] == 200:
        answered.append(time.monotonic())
    client.close()


def follow_changes(verdicts, cluster, writes=10):
    """A stream tells what stands, then each write of another node within a second, and nothing where none comes."""
    reader, slowest = Client(cluster.web[1]), 0.0
    last, view = event_in(reader.ask("GET", "/v1/changes"))
    stores = sum(int(row["number"]) for row in view["rows"])
    verdicts.add(last == str(stores), f"the first event has what stands, {stores} stores")
    for number in range(writes):
        answered = []
        writer = threading.Thread(target=write_later, args=(cluster.web[2], f"change-{number}", answered))
        writer.start()
        last, view = event_in(reader.ask("GET", "/v1/changes", None, {"Last-Event-ID": last}))
        heard = time.monotonic()
        writer.join()
        slowest = max(slowest, heard - answered[0])
        texts = {row["node"]: row.get("text") for row in (view or {"rows": []})["rows"]}
        if texts.get(2) != f"change-{number}":
            verdicts.add(False, f"an event lacks a write: {texts}")
            break
    verdicts.add(slowest < 1, f"each of {writes} writes was told, {slowest:.2f} s after its answer at most")
    told = reader.ask("GET", "/v1/changes?timeout=1s", None, {"Last-Event-ID": last})
    verdicts.add(told[0] == 200 and event_in(told) == (None, None), "where nothing changes there is no event")
    reader.close()


def kill_often(verdicts, cluster, kills=20):
    stop, counts, done = threading.Event(), [0, 0], [[] for _ in range(4)]
    before = int((row_of(Client(cluster.web[1]), 1) or {"number": "0"})["number"])
    port = cluster.web[1]
    threads = [threading.Thread(target=write_with_key, args=(port, 1000 + it, done[it], stop)) for it in range(4)]
    threads.append(threading.Thread(target=write_without, args=(port, counts, stop)))
    for thread in threads:
        thread.start()
    for _ in range(kills):
        time.sleep(0.3 + random.random() * 0.5)
        cluster.kill(1)
        time.sleep(random.random() * 0.1)
        cluster.start(1)
    time.sleep(1)
    stop.set()
    for thread in threads:
        thread.join()
    keyed = sum(len(one) for one in done)
    row = row_of(Client(port), 1)
    written = int(row["number"]) - before
    verdicts.add(None not in sum(done, []), "no key was another write's")
    verdicts.add(keyed + counts[1] <= written <= keyed + counts[0],
                 f"{kills} kills: {keyed} writes with a key and {counts[1]} of {counts[0]} without one were answered; {written} were done")


def main(words):
    end_on_signals()
    count, seed = int(words[1]) if len(words) > 1 else 1_000_000, words[2] if len(words) > 2 else "1"
    verdicts = Verdicts()
    with WebCluster(words[0], 3, beta="2/3", share=32) as cluster:
        cluster.start_all()
        cluster.wait_until_ready()
        idle = http_limits.Idle(cluster.web[2])
        run_lines(verdicts, cluster)
        send_all(verdicts, cluster)
        http_rows.take_rows(verdicts, Client(cluster.web[1]))
        follow_changes(verdicts, cluster)
        http_limits.take_limits(verdicts, cluster.web[1])
        mutate_all(verdicts, cluster, count, seed)
        idle.judge(verdicts)
        lose_quorum(verdicts, cluster)
        kill_often(verdicts, cluster)
    return 0 if verdicts.is_good else 1


if __name__ == "__main__":
    sys.exit(main(sys.argv[1:]))
