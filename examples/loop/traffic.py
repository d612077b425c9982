"""The clients of a service: traffic.py PORT REQUESTS. It sends so many requests a second. For each
second it writes a line of JSON: how many each version answered, and how many ended in which error:
the status of an answer that is none of a version's, or is 500; `none` if there was no answer within
10 seconds."""
import collections
import concurrent.futures
import contextlib
import http.client
import json
import sys
import threading
import time

PORT, REQUESTS = int(sys.argv[1]), int(sys.argv[2])
answered, errors, lock = collections.Counter(), collections.Counter(), threading.Lock()


def send():
    try:
        with contextlib.closing(http.client.HTTPConnection("127.0.0.1", PORT, timeout=10)) as one:
            one.request("GET", "/")
            reply = one.getresponse()
            status, body = reply.status, reply.read(1000).decode(errors="replace")
    except (OSError, http.client.HTTPException):
        status, body = "none", ""
    with lock:
        if status in (200, 500):
            answered[body] += 1
        if status != 200:
            errors[str(status)] += 1


def tell():
    """Writes the line of the second that is over."""
    with lock:
        line = {"answered": dict(sorted(answered.items())), "errors": dict(sorted(errors.items()))}
        answered.clear()
        errors.clear()
    print(json.dumps(line), flush=True)


def main():
    # Of a service that is dead each request may wait for 10 seconds.
    with concurrent.futures.ThreadPoolExecutor(11 * REQUESTS) as clients:
        begun, sent = time.monotonic(), 0
        while True:
            clients.submit(send)
            sent += 1
            time.sleep(max(0, begun + sent / REQUESTS - time.monotonic()))
            if sent % REQUESTS == 0:
                tell()


main()
