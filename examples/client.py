"""Three requests on one connection by python's http.client: a GET, an upload in chunks, and OPTIONS for the gateway."""

import http.client

connection = http.client.HTTPConnection("127.0.0.1", 8080, timeout=10)
for method, path, body in [
    ("GET", "/items/7", None),
    ("POST", "/upload", iter([b"0123456789"] * 1000)),
    ("OPTIONS", "*", None),
]:
    connection.request(method, path, body, encode_chunked=body is not None)
    reply = connection.getresponse()
    print(method, path, reply.status, reply.read().decode().strip())
connection.close()
