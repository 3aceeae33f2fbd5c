"""A server of HTTP for tests: it answers as it is told, also as no server should."""

import socketserver
import threading
import urllib.parse
from contextlib import contextmanager


class _Handler(socketserver.StreamRequestHandler):
    def handle(self):
        words = self.rfile.readline().decode().split()
        headers = {}
        while True:
            name, _, value = self.rfile.readline().decode().strip().partition(": ")
            if not name:
                break
            headers[name.lower()] = value
        body = self.rfile.read(int(headers.get("content-length", 0))).decode()
        path, _, query = words[1].partition("?")
        asked = {name: values for name, values in urllib.parse.parse_qs(query or body).items()}
        self.server.asked.append((words[0], path, asked, headers))
        try:
            self.server.answer(self.wfile, path, asked)
        except OSError:
            # (who asked is gone)
            pass


class Server(socketserver.ThreadingTCPServer):
    daemon_threads = True
    allow_reuse_address = True


@contextmanager
def answering(answer, certificates=None):
    """Serves on a free port: `answer` is called with a file to write to, the path and the parameters; or it is what is written. With
    certificates it serves `https`."""
    server = Server(("127.0.0.1", 0), _Handler)
    if certificates:
        server.socket = certificates.wrap_socket(server.socket, server_side=True)
    server.asked = []
    server.answer = answer if callable(answer) else lambda file, path, asked: file.write(answer)
    server.url = f"http{'s' * bool(certificates)}://127.0.0.1:{server.server_address[1]}"
    thread = threading.Thread(target=server.serve_forever, kwargs={"poll_interval": 0.02})
    thread.start()
    try:
        yield server
    finally:
        server.shutdown()
        thread.join()
        server.server_close()


def http(body, status="200 OK", kind="application/json", more=""):
    """An answer of HTTP."""
    body = body.encode() if isinstance(body, str) else body
    return f"HTTP/1.1 {status}\r\nContent-Type: {kind}\r\nContent-Length: {len(body)}\r\n{more}\r\n".encode() + body
