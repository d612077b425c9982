"""A service as a toy: service.py PORT VERSION ERRORS. It answers with its version, by 500 for such
a share of the requests, and /metrics counts both for Prometheus."""
import http.server
import sys
import threading

PORT, VERSION, ERRORS = int(sys.argv[1]), sys.argv[2], float(sys.argv[3])
counted, lock = {200: 0, 500: 0}, threading.Lock()


def next_status():
    """An error for each so many requests, evenly, so that few of them already show the share."""
    with lock:
        count = sum(counted.values())
        status = 500 if int((count + 1) * ERRORS) > int(count * ERRORS) else 200
        counted[status] += 1
    return status


class Handler(http.server.BaseHTTPRequestHandler):
    protocol_version = "HTTP/1.1"
    wbufsize = -1

    def do_GET(self):  # pylint: disable=invalid-name
        if self.path == "/metrics":
            rows = [f'requests_total{{code="{code}"}} {count}\n' for code, count in counted.items()]
            return self.answer(200, "# TYPE requests_total counter\n" + "".join(rows))
        return self.answer(next_status(), VERSION)

    def answer(self, status, text):
        self.send_response(status)
        self.send_header("Content-Type", "text/plain; version=0.0.4")
        self.send_header("Content-Length", str(len(text)))
        self.end_headers()
        self.wfile.write(text.encode())

    def log_message(self, *_):  # pylint: disable=arguments-differ
        """Nothing."""


class Server(http.server.ThreadingHTTPServer):
    # If more connections wait to be taken, the router tries again a second later.
    request_queue_size = 128

    def handle_error(self, *_):
        """Nothing: a router that is killed ends its connections."""


Server(("127.0.0.1", PORT), Handler).serve_forever()
