"""A backend to try the gateway with: it answers with its port, the number of the connection, what was asked for, and how
many bytes came along. Behind `/leave` it closes the connection without having said so."""

import http.server
import itertools
import sys

connections = itertools.count(1)


class Backend(http.server.BaseHTTPRequestHandler):
    protocol_version = "HTTP/1.1"

    def setup(self):
        super().setup()
        self.number = next(connections)

    def do_GET(self):
        self.answer(f"hello from backend {self.server.server_port}, connection {self.number}: {self.path}\n")
        self.close_connection = self.close_connection or self.path == "/leave"

    def do_POST(self):
        count = len(self.chunks() if "chunked" in self.headers.get("Transfer-Encoding", "") else self.counted())
        self.answer(f"backend {self.server.server_port} took {count} bytes: {self.path}\n")

    def counted(self):
        return self.rfile.read(int(self.headers.get("Content-Length", 0)))

    def chunks(self):
        taken = b""
        while size := int(self.rfile.readline().split(b";")[0], 16):
            taken += self.rfile.read(size)
            self.rfile.readline()
        while self.rfile.readline().strip():
            pass
        return taken

    def answer(self, text):
        body = text.encode()
        self.send_response(200)
        self.send_header("Content-Type", "text/plain")
        self.send_header("Content-Length", str(len(body)))
        self.end_headers()
        self.wfile.write(body)

    def log_message(self, *arguments):
        pass


http.server.ThreadingHTTPServer(("127.0.0.1", int(sys.argv[1])), Backend).serve_forever()
