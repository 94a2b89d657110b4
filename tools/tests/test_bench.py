"""The bench: what its judge says, and how its server keeps others out. test_bench_page.py has the page itself."""
import json
import os
import re
import shutil
import signal
import socket
import subprocess
import sys
import tempfile
import threading
import time
import unittest
from dataclasses import replace
from pathlib import Path
from unittest import mock

import common
from bukzarn import Image, Outcome, LogRecord
from bukzarn.bench import claims, judge, pool, serve, server
from served import ASCENT, COLD, EXAMPLES, FRAMES, PROCEDURE, Served

# A worker that takes a minute over one text.
SLOW_WORKER = """
import sys, time
sys.path.insert(0, sys.argv[1])
from bukzarn.bench import worker
own, worker.TIME_LIMIT = worker.judge, 1.5
worker.judge = lambda started, texts: time.sleep(60) if texts == ["slow"] else own(started, texts)
worker.main()
"""


def setup(procedure=PROCEDURE, frames=FRAMES, length=12):
    return judge.Setup(procedure, tuple(frames[at:at + length] for at in range(0, len(frames), length)))


@common.with_library
class Judged(unittest.TestCase):
    def test_an_accepted_watch(self):
        said = judge.judge(setup(), [COLD])
        self.assertIsNone(said["fault"])
        self.assertEqual([(e["word"], e["count"], e["first"]) for e in said["outcomes"]], [("done", 559, 0), ("aborted", 41, 39)])
        self.assertEqual((len(said["with"]["levels"]), len(said["without"]["levels"])), (559, 559))
        marked = [level for level in said["with"]["levels"] if level[2]]
        self.assertTrue(marked)
        self.assertTrue(all(domain == 1 and number < -620 for _, _, marks in marked for domain, number in marks))
        self.assertFalse([level for level in said["without"]["levels"] if level[2]])
        self.assertEqual((said["differ"], said["cut"]), ([], []))
        self.assertIn("in the 559 frames where the run is done", said["proved"])
        self.assertIn("in the other 41, the decoder's numbers", said["proved"])
        totals = {what: numbers for what, *numbers in said["totals"]}
        self.assertEqual(totals["printed by watch"][0], sum(len(marks) for _, _, marks in marked))

    def test_a_watch_that_stores_to_the_decoders_cell(self):
        proc = (EXAMPLES / "sonde.proc").read_text()
        watch = "# one\ninstall advice on pointcut {level} as l {\n    correction := 100\n}"
        said = judge.judge(setup(proc, bytes(range(256)), 256), [watch])
        fault = said["fault"]
        self.assertEqual((fault["refusal"][0], fault["text"], fault["line"], fault["column"]), (15, 0, 3, 5))
        self.assertIn("cell that is stored to", fault["message"])
        self.assertIn("a watch keeps cells of its own domain", fault["mend"])
        self.assertEqual(len(said["without"]["levels"]), 6)

    def test_the_engine_and_the_words_agree(self):
        """Each faulty watch of the examples has the engine's number, a line and a remedy."""
        proc = (EXAMPLES / "sonde.proc").read_text()
        for name in ("alter", "faulty"):
            fault = judge.judge(setup(proc, bytes(range(256)), 256), [(EXAMPLES / f"{name}.watch").read_text()])["fault"]
            if fault and fault["refusal"]:
                self.assertTrue(fault["line"] and fault["mend"], name)

    def test_a_text_that_cannot_be_read(self):
        fault = judge.judge(setup(), ["", "install advise"])["fault"]
        self.assertIsNone(fault["refusal"])
        for texts, text, line in (([COLD, "install advise"], 1, 1), ([COLD + "\n}"], 0, 8)):
            fault = judge.judge(setup(), texts)["fault"]
            self.assertEqual((fault["text"], fault["line"]), (text, line))

    def test_a_procedure_that_is_wrong(self):
        said = judge.judge(setup("domain a print"), [])
        self.assertEqual((said["fault"]["text"], said["without"]), ("procedure", None))

    def test_a_greedy_watch_cuts_runs_short(self):
        proc = (EXAMPLES / "sonde.proc").read_text()
        said = judge.judge(setup(proc, bytes(range(256)), 256), [(EXAMPLES / "greedy.watch").read_text()])
        self.assertEqual((said["cut"], said["differ"], said["outcomes"][0]["word"]), ([0], [], "other-bindings"))
        self.assertIn("Proved: in the frame where the run is not done, the decoder's numbers ", said["proved"])

    def test_takedowns_are_told(self):
        proc = (EXAMPLES / "sonde.proc").read_text()
        said = judge.judge(setup(proc, bytes(range(256)), 256), [(EXAMPLES / "three.watch").read_text()])
        self.assertIn("(A watch takes watches down.)", said["proved"])

    def test_needs_beside_limits(self):
        proc, watch = (EXAMPLES / "ground.proc").read_text(), (EXAMPLES / "limits.watch").read_text()
        said = judge.judge(setup(proc, bytes(range(256)), 256), [watch])["needs"]
        self.assertEqual(said["why"], "")
        self.assertEqual(said["rows"][0][:2], ["steps", 88])
        listed = [line.split()[0] for line in (EXAMPLES / "limits.need").read_text().splitlines()]
        self.assertEqual([word for word, *_ in said["rows"]], listed)
        self.assertIn("outside the class", judge.judge(setup(), [COLD])["needs"]["why"])

    def test_cells_are_totalled(self):
        proc = (EXAMPLES / "sonde.proc").read_text()
        said = judge.judge(setup(proc, bytes(range(256)), 256), [(EXAMPLES / "count.watch").read_text()])
        self.assertTrue([what for what, *_ in said["totals"] if what.startswith("cell 0 of watch")], said["totals"])

    def test_runs_that_differ_would_be_told(self):
        """A decoder's number that is another, a result that is another, a number more where both are done."""
        runs = Image.read(ASCENT / "plain.img").run_frames(FRAMES[:12], 12)
        one = runs[0]
        for other in (replace(one, log=one.log[:1]), replace(one, result=(1,)),
                      replace(one, log=(LogRecord(0, 1), *one.log[1:]))):
            self.assertEqual(claims.comparison_claims([one], [other], 1, False)["differ"], [0])
        cut = replace(one, log=one.log[:1], outcome=Outcome.ABORTED)
        self.assertEqual(claims.comparison_claims([one], [cut], 1, False)["differ"], [])
        self.assertEqual(claims.comparison_claims([one], [cut], 1, False)["cut"], [0])


class Frames(unittest.TestCase):
    def test_frames_of_a_recording(self):
        frames, told = serve.read_frames(str(ASCENT / "ascent.frames"), 12)
        self.assertEqual((len(frames), told["count"], told["left"]), (600, 600, 0))
        with mock.patch.object(serve, "FRAME_LIMIT", 100):
            frames, told = serve.read_frames(str(ASCENT / "ascent.frames"), 12)
        self.assertEqual((len(frames), told["left"]), (100, 500))
        self.assertEqual(serve.read_frames(None, None)[0], [bytes(range(256))])

    def test_what_cannot_be_used(self):
        for file, length in ((ASCENT / "ascent.frames", 13), (ASCENT / "ascent.frames", None), (ASCENT / "ascent.frames", 0)):
            self.assertRaises(serve.StartError, serve.read_frames, str(file), length)


class Server(Served):
    def test_the_page(self):
        scripts = [(f"/{name}", "text/javascript") for name in ("page.js", "runs.js", "picture.js", "dom.js")]
        for path, kind in (("/", "text/html"), ("/page.css", "text/css"), *scripts):
            status, headers, data = self.ask(path=path)
            self.assertEqual((status, headers["Content-Type"]), (200, f"{kind}; charset=utf-8"))
            self.assertIn("default-src 'none'", headers["Content-Security-Policy"])
            self.assertNotIn(b"http://", data.replace(b"http://www.w3.org/2000/svg", b""), "nothing is loaded from elsewhere")
            self.assertNotIn(b"https://", data)
        start = json.loads(self.ask(path="/start")[2])
        names = start["procedure"]["name"], start["watches"][0]["name"]
        self.assertEqual((names, start["frames"]["count"]), (("ascent.proc", "cold.watch"), 600))

    def test_a_verdict(self):
        status, _, data = self.judge([COLD])
        self.assertEqual((status, json.loads(data)["fault"]), (200, None))
        self.assertEqual(json.loads(self.judge([COLD.replace("print t", "print")])[2])["fault"]["line"], 5)
        self.assertEqual(json.loads(self.judge([])[2])["fault"], None)

    def test_others_are_turned_away(self):
        own = f"127.0.0.1:{self.port}"
        for host in ("evil.example", f"evil.example:{self.port}", "127.0.0.1", f"127.0.0.1:{self.port + 1}", "", None):
            self.assertEqual(self.ask(Host=host)[0], 421, host)
            self.assertEqual(self.judge([COLD], Host=host)[0], 421, host)
        for origin in ("http://evil.example", "null", f"https://{own}", "http://127.0.0.1", None, ""):
            self.assertEqual(self.judge([COLD], Origin=origin)[0], 403, origin)
        self.assertEqual(self.ask(Origin="http://evil.example")[0], 403)
        self.assertEqual(self.ask(path="/start", Origin="null")[0], 403)
        self.assertEqual(self.judge([COLD], Host=f"localhost:{self.port}", Origin=f"http://localhost:{self.port}")[0], 200)

    def test_no_path_comes_from_a_request(self):
        for path in ("/../../../etc/passwd", "/page.html", "/server.py", "/page.css?x", "/%2e%2e/server.py", "/page.js/",
                     "page.js", "*"):
            self.assertEqual(self.ask(path=path)[0], 404, path)
        for path in ("/", "/start", "/judge/"):
            given = {"Origin": f"http://127.0.0.1:{self.port}", "Content_Type": "application/json"}
            self.assertEqual(self.ask("POST", path, b"[]", **given)[0], 404)
        for method in ("PUT", "DELETE", "HEAD", "OPTIONS", "PATCH"):
            self.assertEqual(self.ask(method)[0], 501)

    def test_what_is_no_request(self):
        for body in (b"{", b"{}", b"[1]", b'"x"', b"\xff", b"[" * 300_000, b"", json.dumps([""] * 17).encode()):
            self.assertEqual(self.judge(body)[0], 400, body[:20])
        self.assertEqual(self.judge([], Content_Type="text/plain")[0], 415)
        self.assertEqual(self.judge([], Transfer_Encoding="chunked")[0], 411)
        for length in ("x", "-1", "", "1e3", "²"):
            self.assertEqual(self.judge([], **{"Content_Length": length.encode("latin-1").decode("latin-1")})[0], 411, length)

    def test_too_large(self):
        for length in (str(server.BODY_LIMIT + 1), "9" * 400):
            self.assertEqual(self.judge(b"[]", Content_Length=length)[0], 413)
        self.assertEqual(self.judge(["#" + "x" * (server.BODY_LIMIT - 10)])[0], 200)

    def test_too_slow(self):
        """A request that comes byte by byte is cut off at its time, and others are answered meanwhile."""
        with mock.patch.object(server, "ARRIVAL_LIMIT", 1.0), mock.patch.object(server.Handler, "timeout", 1.0):
            began = time.monotonic()
            with socket.create_connection(("127.0.0.1", self.port)) as slow:
                slow.settimeout(20)
                try:
                    for byte in b"GET / HTTP/1.0\r\n" + b"X-Long: 1\r\n" * 100:
                        slow.send(bytes([byte]))
                        time.sleep(0.05)
                        if time.monotonic() - began > 10:
                            break
                except OSError:
                    pass
                self.assertLess(time.monotonic() - began, 8)
                self.assertEqual(self.ask()[0], 200)

    def test_many_connections(self):
        """Connections that say nothing take a slot each until their time is over; one past the last is closed at once."""
        held = [socket.create_connection(("127.0.0.1", self.port)) for _ in range(server.CONNECTIONS + 3)]
        for one in held:
            self.addCleanup(one.close)
        held[-1].settimeout(5)
        self.assertEqual(held[-1].recv(1), b"")

    def test_a_text_that_takes_long_does_not_stop_the_page(self):
        """While it is judged, others are; then it is given up, and the next text is judged."""
        began, answers = time.monotonic(), []
        with mock.patch.object(pool, "START", SLOW_WORKER):
            for one in self.server.pool.all:
                one.process.kill()
                one.process.wait()
            thread = threading.Thread(target=lambda: answers.append(self.judge(["slow"])))
            thread.start()
            time.sleep(0.3)
            self.assertEqual(self.ask()[0], 200)
            self.assertEqual(self.judge([COLD])[0], 200)
            self.assertEqual(answers, [])
            thread.join()
            self.assertEqual(answers[0][0], 422)
            self.assertIn("was given up", json.loads(answers[0][2])["problem"])
            self.assertEqual(self.judge([COLD])[0], 200)
        self.assertLess(time.monotonic() - began, 20)

    def test_a_worker_that_ends_is_started_anew(self):
        for one in self.server.pool.all:
            one.process.kill()
            one.process.wait()
        self.assertEqual(self.judge([COLD])[0], 200)
        self.assertEqual(self.judge([COLD])[0], 200)

    def test_nothing_is_written(self):
        """No file of the examples or the package is new or changed after requests."""
        def seen():
            return {file: file.stat().st_mtime_ns for folder in (ASCENT, common.ROOT / "python") for file in folder.rglob("*")
                    if "__pycache__" not in str(file)}
        before = seen()
        self.judge([COLD])
        self.judge(["install"])
        self.ask()
        self.assertEqual(seen(), before)


class Workers(unittest.TestCase):
    """The limits of a worker, with one that idles in place of the judge."""

    def test_one_that_takes_too_long_is_given_up(self):
        with mock.patch.object(pool, "START", SLOW_WORKER.replace("own(started, texts)", "{'texts': texts}")):
            made = pool.Pool({"procedure": "", "frames": [], "columns": ""})
            self.addCleanup(made.end)
            began = time.monotonic()
            self.assertRaises(pool.OverLimit, made.ask, ["slow"])
            self.assertLess(time.monotonic() - began, 15)
            self.assertEqual(json.loads(made.ask(["short"])), {"texts": ["short"]})

    def test_too_much_memory(self):
        hungry = ("import sys; sys.path.insert(0, sys.argv[1]); from bukzarn.bench import worker; "
                  "worker.MEMORY_LIMIT = 300 << 20; worker.judge = lambda started, texts: len(bytes(400 << 20)); worker.main()")
        with mock.patch.object(pool, "START", hungry):
            made = pool.Pool({"procedure": "", "frames": [], "columns": ""})
            self.addCleanup(made.end)
            self.assertRaises(pool.OverLimit, made.ask, ["x"])

    def test_none_that_is_free(self):
        with mock.patch.object(pool, "QUEUE_TIMEOUT", 0.1), mock.patch.object(pool, "WORKERS", 0):
            self.assertRaises(pool.Busy, pool.Pool({}).ask, [])


@common.with_library
class Command(unittest.TestCase):
    def start(self, *words):
        command = [sys.executable, common.ROOT / "tools/watchtool.py", "bench", *words]
        process = subprocess.Popen(command, stdout=subprocess.PIPE, stderr=subprocess.PIPE, text=True, cwd=common.ROOT)
        self.addCleanup(process.communicate)
        self.addCleanup(process.kill)
        return process

    def test_it_says_where_it_is_and_ends_with_an_interrupt(self):
        process = self.start("examples/ascent/ascent.proc", "--frames", "examples/ascent/ascent.frames", "--length", "12")
        said = process.stdout.readline()
        port = int(re.fullmatch(r"The bench is at http://127\.0\.0\.1:(\d+)/ \(Ctrl-C ends it\)\n", said).group(1))
        taken = self.start("examples/ascent/ascent.proc", "--port", str(port))
        self.assertIn(f"port {port} is not free", taken.communicate()[1])
        process.send_signal(signal.SIGINT)
        self.assertEqual(process.communicate()[1], "")
        self.assertEqual(process.returncode, -signal.SIGINT)

    def test_its_workers_end_with_it(self):
        """Also if it is killed: they see that nobody asks them any more."""
        process = self.start("examples/ascent/ascent.proc")
        process.stdout.readline()
        children = Path(f"/proc/{process.pid}/task/{process.pid}/children").read_text().split()
        self.assertEqual(len(children), pool.WORKERS)
        process.kill()
        process.wait()
        end = time.monotonic() + 10
        while any(Path("/proc", child).exists() for child in children):
            self.assertLess(time.monotonic(), end, "a worker goes on")
            time.sleep(0.05)

    def test_without_the_library(self):
        """It says so at once, and not of each text."""
        clean = {**os.environ, "BUKZARN_LIBRARY": "/nowhere"}
        with tempfile.TemporaryDirectory() as folder:
            shutil.copytree(common.ROOT / "python", Path(folder, "python"), ignore=shutil.ignore_patterns("*.so", "__pycache__"))
            shutil.copytree(common.ROOT / "tools", Path(folder, "tools"), ignore=shutil.ignore_patterns("tests", "__pycache__"))
            command = [sys.executable, Path(folder, "tools/watchtool.py"), "bench", ASCENT / "ascent.proc"]
            said = subprocess.run(command, capture_output=True, text=True, check=False, env=clean)
        self.assertEqual(said.returncode, 1)
        self.assertIn("libbukzarn.so is not there: make it with", said.stderr)

    def test_what_cannot_be_started(self):
        procedure, recording = "examples/ascent/ascent.proc", ("--frames", "examples/ascent/ascent.frames")
        for words, told in (((procedure, *recording), "--length"), (("examples/ascent/plain.img",), "is an image"),
                            (("no-such.proc",), "No such file"),
                            ((procedure, "--frames", "none", "--length", "3"), "No such file"),
                            ((procedure, *recording, "--length", "7"), "no multiple of 7"),
                            ((procedure, "--port", "70000"), "there is no port 70000")):
            process = self.start(*words)
            said = process.communicate()[1]
            self.assertIn(told, said)
            self.assertNotIn("Traceback", said)
            self.assertIn(process.returncode, (1, 2))


if __name__ == "__main__":
    unittest.main()
