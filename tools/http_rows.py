"""Which order each request over HTTP is, and which fault comes first: rows over loopback.

What is wanted stands in docs/RUN.md ("Clients that speak HTTP") and in the definitions of cc_web (`order_of`). Each row is a
request and the fault that its answer names, by its status and its words; a row without a fault is answered 200."""
import json

FAULTS = {
    "nothing there": (404, "there is nothing at this path"),
    "no such method": (405, "there is no such method"),
    "no timeout": (400, "the query is no timeout"),
    "no key": (400, "Idempotency-Key is no SESSION/REQUEST"),
    "own session": (400, "this session is one of the node's own"),
    "another type": (415, "the body is taken as it stands"),
    "too long": (413, "the body is longer"),
    "no such body": (400, "the body is not what is written here"),
    "another origin": (403, "a page of another origin may not write"),
    "stands twice": (400, "a header field stands twice"),
}

PATHS = ("/", "/v1", "/v1/texts", "/v1/text/", "/v1/t%65xt", "/V1/text", "/v1/sessions/", "/v1/sessions/0", "/v1/sessions/07",
         "/v1/sessions/18446744073709551616")
METHODS = (("GET", "/v1/text"), ("POST", "/v1/text"), ("PUT", "/v1/set"), ("put", "/v1/max"), ("DELETE", "/v1/flag"),
           ("OPTIONS", "/v1/view"))
TIMES = ("", "timeout", "timeout=", "timeout=5", "timeout=s", "timeout=0s", "timeout=61s", "timeout=60001ms", "timeout=05s",
         "timeout=18446744073709551615s", "Timeout=5s", "timeout=5s&a=b", "a=b")
KEYS = ("", "7", "7/", "/3", "0/1", "7/0", "07/1", "7/3/1", "7 /3", "\xff/1", "7/18446744073709551616")
BODIES = (("PUT", "/v1/text", "", "no such body"), ("PUT", "/v1/text", "a" * 65, "too long"), ("PUT", "/v1/max", "", "no such body"),
          ("PUT", "/v1/max", "7\n", "no such body"), ("PUT", "/v1/max", "007", "no such body"),
          ("PUT", "/v1/max", "18446744073709551616", "no such body"), ("PUT", "/v1/max", "100000000000000000000", "too long"),
          ("PUT", "/v1/flag", "1", "too long"), ("POST", "/v1/set", "4294967296", "no such body"),
          ("POST", "/v1/set", "42949672960", "too long"), ("GET", "/v1/view", "a", "too long"))
TAKEN_TYPES = ("text/plain", "text/plain; charset=utf-8", "Text/Plain ;charset=utf-8", "application/octet-stream",
               "application/x-www-form-urlencoded")
OTHER_TYPES = ("application/json", "text/plainer", "", "multipart/form-data; boundary=a")


def rows():
    """Method, target, body, fields, and the fault that is named, or None."""
    yield from (("GET", path, None, {}, "nothing there") for path in PATHS)
    yield from ((method, path, None, {}, "no such method") for method, path in METHODS)
    yield from (("GET", f"/v1/max?{query}", None, {}, "no timeout") for query in TIMES)
    yield from (("GET", f"/v1/max?timeout={it}", None, {}, None) for it in ("5s", "500ms", "60s", "60000ms"))
    yield from (("PUT", "/v1/flag", None, {"Idempotency-Key": key}, "no key") for key in KEYS)
    yield from (("GET", path, None, {"Idempotency-Key": "7/3"}, "no key") for path in ("/v1/", "/v1/snapshot", "/v1/sessions/7"))
    # With 64 sessions of the node's own the last one of a client is 2^64 - 65.
    yield from (("PUT", "/v1/flag", None, {"Idempotency-Key": f"{it}/1"}, "own session") for it in (2**64 - 64, 2**64 - 1))
    yield "PUT", "/v1/flag", None, {"Idempotency-Key": f"{2**64 - 65}/1"}, None
    yield from ((method, path, body, {}, fault) for method, path, body, fault in BODIES)
    yield from (("POST", "/v1/set", "7", {"Content-Type": it}, None) for it in TAKEN_TYPES)
    yield from (("POST", "/v1/set", "7", {"Content-Type": it}, "another type") for it in OTHER_TYPES)
    yield from (("POST", "/v1/set", "7", {"Sec-Fetch-Site": it}, "another origin") for it in ("cross-site", "same-site"))
    yield from (("POST", "/v1/set", "7", {"Sec-Fetch-Site": it}, None) for it in ("same-origin", "none"))
    yield "POST", "/v1/set", "7", {"Origin": "https://elsewhere.example"}, "another origin"


def is_told(told, fault):
    """Whether an answer is what a row wants."""
    status, _, body = told
    if fault is None:
        return status == 200
    wanted, words = FAULTS[fault]
    return status == wanted and json.loads(body)["status"] == wanted and json.loads(body)["detail"].startswith(words)


def take_rows(verdicts, client):
    """Sends each row, and looks at what comes back."""
    wrong, count = [], 0
    for method, target, body, fields, fault in rows():
        told = client.ask(method, target, body, fields)
        count += 1
        if not is_told(told, fault):
            wrong.append(f"{method} {target} {body} {fields}: {told[0]} {told[2][:200]}, not {fault or 200}")
    verdicts.add(not wrong, f"{count} requests are the order or have the fault that the page says {wrong}")
