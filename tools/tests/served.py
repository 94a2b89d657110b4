"""A bench for the tests: served as the command serves it, and asked as a browser would ask it."""
import http.client
import json
import threading
import unittest

import common
from bukzarn.bench import serve

EXAMPLES = common.ROOT / "examples"
ASCENT = EXAMPLES / "ascent"
FRAMES = (ASCENT / "ascent.frames").read_bytes()
PROCEDURE = (ASCENT / "ascent.proc").read_text()
COLD = (ASCENT / "cold.watch").read_text()


@common.with_library
class Served(unittest.TestCase):
    """A bench of its own, as the command makes it."""
    texts = [(PROCEDURE, str(ASCENT / "ascent.proc")), (COLD, str(ASCENT / "cold.watch"))]

    def setUp(self):
        self.server = serve.bench(self.texts, str(ASCENT / "ascent.frames"), 12, 0, "pressure/10,temperature/10,humidity")
        self.port = self.server.server_port
        thread = threading.Thread(target=self.server.serve_forever, daemon=True)
        thread.start()
        self.addCleanup(self.server.server_close)
        self.addCleanup(self.server.shutdown)

    def ask(self, method="GET", path="/", body=None, **headers):
        """The status of a request, its headers and its body. A header that is None is left out."""
        given = {"Host": f"127.0.0.1:{self.port}", **{name.replace("_", "-"): value for name, value in headers.items()}}
        connection = http.client.HTTPConnection("127.0.0.1", self.port, timeout=30)
        connection.putrequest(method, path, skip_host=True, skip_accept_encoding=True)
        for name, value in given.items():
            if value is not None:
                connection.putheader(name, value)
        if body is not None and "Content-Length" not in given:
            connection.putheader("Content-Length", str(len(body)))
        connection.endheaders(body)
        answer = connection.getresponse()
        data = answer.read()
        connection.close()
        return answer.status, dict(answer.getheaders()), data

    def judge(self, watches, **more):
        body = watches if isinstance(watches, bytes) else json.dumps(watches).encode()
        given = {"Origin": f"http://127.0.0.1:{self.port}", "Content_Type": "application/json", **more}
        return self.ask("POST", "/judge", body, **given)
