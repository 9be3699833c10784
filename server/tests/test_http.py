"""Broken HTTP: what is answered, and that the server goes on."""
import http.client
import os
import re
import socket
import subprocess
import threading
import time
import unittest

from served import Served, until


class Http(unittest.TestCase):
    @classmethod
    def setUpClass(cls):
        cls.served = Served("--patience", "1", "--most-connections", "3000", "--most-body", "200000")
        cls.served.add("ctr2", "undo", "up")
        cls.child = cls.served.store()

    @classmethod
    def tearDownClass(cls):
        cls.served.close()

    def tearDown(self):
        self.assertEqual(self.served.get("/v1/snapshot?object=up").status, 200)
        self.assertEqual((self.served.store(), self.served.process.poll()), (self.child, None))

    def socket(self):
        return socket.create_connection(("127.0.0.1", self.served.port), timeout=20)

    def raw(self, sent, is_half_closed=False):
        """What is answered to these bytes, until the connection is closed, or nothing comes for a while."""
        with self.socket() as one:
            one.settimeout(1.6)
            try:
                one.sendall(sent)
                if is_half_closed:
                    one.shutdown(socket.SHUT_WR)
            except OSError:
                pass
            told = b""
            try:
                while more := one.recv(65_536):
                    told += more
            except OSError:
                pass
            return told

    def status(self, sent):
        told = self.raw(sent)
        return int(told.split(b" ")[1]) if told.startswith(b"HTTP/1.1 ") else None

    # ---- heads

    def test_large_heads(self):
        self.assertEqual(self.status(b"GET / HTTP/1.1\r\nx: " + b"a" * 300_000 + b"\r\n\r\n"), 431)
        self.assertEqual(self.status(b"GET /" + b"a" * 17_000 + b" HTTP/1.1\r\n\r\n"), 404)
        self.assertEqual(self.status(b"GET /v1/objects?prefix=" + b"a" * 17_000 + b" HTTP/1.1\r\n\r\n"), 414)
        self.assertIn(self.status(b"GET / HTTP/1.1\r\n" + b"a: b\r\n" * 1_000 + b"\r\n"), (400, 431))

    def test_nonsense_heads(self):
        for sent in (b"\x00\r\n\r\n", b"GET\r\n\r\n", b"GET / HTTP/9.9\r\n\r\n", b"GET / HTTP/1.1\r\na b: c\r\n\r\n", b"G\xff / HTTP/1.1\r\n\r\n",
                     b"POST /v1/attempts HTTP/1.1\r\ncontent-length: x\r\n\r\n", b"POST /v1/attempts HTTP/1.1\r\ncontent-length: -1\r\n\r\n",
                     b"\x16\x03\x01\x02\x00\x01\x00\x01\xfc\x03\x03" + b"\x00" * 500):
            self.assertIn(self.status(sent), (400, None), sent[:40])

    def test_heads_that_trickle(self):
        self.trickles(b"GET /healthz HTTP/1.1\r\n", b"x: y\r\n")

    def trickles(self, first, piece):
        """A connection on which a bit comes from time to time is closed, not long after the patience."""
        start = time.monotonic()
        with self.socket() as one:
            one.sendall(first)
            one.settimeout(0.2)
            while time.monotonic() - start < 15:
                try:
                    one.sendall(piece)
                    if not one.recv(1_000):
                        break
                    one.settimeout(2)
                    while one.recv(1_000):
                        pass
                    break
                except TimeoutError:
                    continue
                except OSError:
                    break
            self.assertLess(time.monotonic() - start, 5)

    # ---- bodies

    def test_large_bodies(self):
        self.assertEqual(self.served.post("/v1/attempts", "x" * 199_999).problem, "bad-body")
        self.assertEqual(self.status(b"POST /v1/attempts HTTP/1.1\r\ncontent-length: 99999999999\r\n\r\n"), 413)
        chunks = b"POST /v1/attempts HTTP/1.1\r\ntransfer-encoding: chunked\r\n\r\n" + (b"10000\r\n" + b" " * 65_536 + b"\r\n") * 5 + b"0\r\n\r\n"
        self.assertEqual(self.status(chunks), 413)

    def test_bodies_that_trickle(self):
        self.trickles(b"POST /v1/attempts HTTP/1.1\r\ncontent-length: 100000\r\n\r\n", b" ")

    def test_bodies_that_dont_come(self):
        with self.socket() as one:
            one.sendall(b"POST /v1/attempts HTTP/1.1\r\ncontent-length: 10\r\n\r\n1")
            told = one.recv(65_536)
            self.assertTrue(told.startswith(b"HTTP/1.1 408 ") and b"/problems/slow-body" in told, told)

    def test_bodies_that_break_off(self):
        for sent in (b"content-length: 100\r\n\r\n{", b"transfer-encoding: chunked\r\n\r\n9\r\n{"):
            told = self.raw(b"POST /v1/attempts HTTP/1.1\r\n" + sent, is_half_closed=True)
            self.assertIn(told[:12], (b"", b"HTTP/1.1 400"), sent)

    def test_nonsense_chunks(self):
        head = b"POST /v1/attempts HTTP/1.1\r\ntransfer-encoding: chunked\r\n\r\n"
        for chunk in (b"x\r\n", b"ffffffffffffffffff\r\na", b"-1\r\n", b"1\r\nab\r\n", b"\r\n\r\n"):
            self.assertIn(self.status(head + chunk), (400, None), chunk)

    def test_json_of_every_kind(self):
        for body in (b"[[[[" * 1_000, b'{"calls":' * 1_000, b'"' + b"a" * 100_000, b"1e999", b"-", b"[1,", b'{"calls":[{"object":{},"call":[]}]}',
                     b'{"calls":[{"object":-1,"call":"x"}]}', b'{"calls":[{"object":1.5,"call":"x"}]}', b'{"calls":[],"wait":"x"}', b"\xef\xbb\xbf{}",
                     b'{"calls":[{"object":"up","call":"inc:1"}],"wait":1e400}', b'{"calls":[{"object":"up","call":"inc:1","x":1}]}', b"tru"):
            self.assertEqual(self.served.post("/v1/attempts", body).problem, "bad-body", body[:40])
        for wait in (-1, 61, 1e300):
            self.assertEqual(self.served.attempt(("up", "inc:1"), wait=wait).problem, "out-of-range")

    def test_names_with_every_byte(self):
        for byte in range(256):
            path = "/v1/objects/" + "a%%%02x" % byte
            self.assertIn(self.served.get(path).status, (404, 422), byte)
            self.assertIn(self.served.get("/v1/decisions/a%%%02x" % byte).status, (404, 422), byte)
            if chr(byte).isprintable():
                self.assertIn(self.served.attempt((f"up{chr(byte)}", "inc:1")).status, (404, 422), byte)

    # ---- connections

    def test_connections_that_are_reset(self):
        for count in range(50):
            one = self.socket()
            one.sendall(b"POST /v1/attempts HTTP/1.1\r\ncontent-length: 62\r\n\r\n" + b'{"calls":[{"object":"up","call":"inc:1"}]}'[: count % 50])
            one.setsockopt(socket.SOL_SOCKET, socket.SO_LINGER, b"\x01\x00\x00\x00\x00\x00\x00\x00")
            one.close()

    def test_who_closes_half_of_a_connection_is_gone(self):
        for sent in (b"", b"GET /heal", b"GET /healthz HTTP/1.1\r\n\r\n"):
            self.assertIn(self.raw(sent, is_half_closed=True)[:12], (b"", b"HTTP/1.1 200", b"HTTP/1.1 400"), sent)

    def test_requests_that_come_together_are_answered_in_their_order(self):
        told = self.raw(b"GET /healthz HTTP/1.1\r\n\r\nGET /none HTTP/1.1\r\n\r\nGET /healthz HTTP/1.1\r\nconnection: close\r\n\r\n")
        self.assertEqual(re.findall(rb"HTTP/1\.1 (\d+)", told), [b"200", b"404", b"200"])

    def test_two_thousand_connections_that_ask_nothing(self):
        some = [self.socket() for _ in range(2_000)]
        try:
            self.assertEqual(self.served.get("/healthz").status, 200)
            with open(f"/proc/{self.served.process.pid}/status", encoding="ascii") as file:
                kilobytes = int(next(line for line in file if line.startswith("VmRSS")).split()[1])
            self.assertLess(kilobytes, 200_000)
        finally:
            for one in some:
                one.close()
        until(lambda: self.metric("connections") < 10)

    def metric(self, name):
        lines = self.served.get("/metrics").body.decode().splitlines()
        return int(next(line for line in lines if line.startswith(f"colockd_{name} ")).split()[1])

    def test_one_who_takes_no_answer_is_left(self):
        one = self.socket()
        one.setsockopt(socket.SOL_SOCKET, socket.SO_RCVBUF, 4_096)
        try:
            for _ in range(2_000):
                one.settimeout(5)
                one.sendall(b"GET /openapi.json HTTP/1.1\r\n\r\n")
        except OSError:
            pass  # it was closed
        until(lambda: self.metric("connections") < 10)
        one.close()

    def test_http_2_is_spoken(self):
        told = subprocess.run(["curl", "-s", "--http2-prior-knowledge", "-w", "%{http_version} %{http_code}", f"http://127.0.0.1:{self.served.port}/healthz"],
                              capture_output=True, text=True, check=True)
        self.assertEqual(told.stdout, "ok\n2 200")

    def test_floods_of_http_2(self):
        settings = b"\x00\x00\x00\x04\x00\x00\x00\x00\x00"
        head = b"\x82\x86\x84\x41\x01x"  # GET, http, /, an authority
        def frame(kind, flags, stream, body=b""):
            return len(body).to_bytes(3, "big") + bytes([kind, flags]) + stream.to_bytes(4, "big") + body
        resets = b"".join(frame(1, 5, stream, head) + frame(3, 0, stream, b"\x00\x00\x00\x08") for stream in range(1, 8_001, 2))
        pings = frame(6, 0, 0, b"12345678") * 20_000
        continued = frame(1, 0, 1, head) + frame(9, 0, 1, b"\x00" * 16_000) * 200
        for flood in (resets, pings, continued, frame(4, 0, 0, b"\x00\x04\xff\xff\xff\xff"), settings * 20_000, b"\xff" * 100_000):
            self.raw(b"PRI * HTTP/2.0\r\n\r\nSM\r\n\r\n" + settings + flood)
        with open(f"/proc/{self.served.process.pid}/status", encoding="ascii") as file:
            kilobytes = int(next(line for line in file if line.startswith("VmRSS")).split()[1])
        self.assertLess(kilobytes, 300_000)


class Limits(unittest.TestCase):
    def setUp(self):
        self.served = Served("--most-connections", "6", "--most-requests", "2", "--most-followers", "1")
        self.served.add("seats", "undo", "A12")

    def tearDown(self):
        self.served.close()

    def test_connections_beyond_the_limit_are_refused(self):
        some = [socket.create_connection(("127.0.0.1", self.served.port)) for _ in range(6)]
        until(lambda: self.answered() == "too-many-connections")
        for one in some:
            one.close()
        until(lambda: self.answered() == "ok\n")

    def answered(self):
        """A problem, or what is answered; nothing where the connection was closed before."""
        try:
            answer = self.served.get("/healthz")
        except (OSError, http.client.HTTPException):
            return None
        return answer.body.decode() if answer.status == 200 else answer.problem

    def test_requests_beyond_the_limit_are_refused(self):
        one = self.served.begin(idle=600)
        one.call(("A12", "hold:1"))
        is_over = threading.Event()
        threads = [threading.Thread(target=self.wait_again, args=(is_over,)) for _ in range(2)]
        for thread in threads:
            thread.start()
        try:
            answer = until(self.refused_request)
            self.assertEqual((answer.status, answer.headers["retry-after"]), (503, "1"))
            self.assertEqual(self.served.get("/healthz").status, 200)
        finally:
            is_over.set()
            for thread in threads:
                thread.join()

    def wait_again(self, is_over):
        """Waits for a seat; again where it was refused, since the request that is looked for takes a place too."""
        while not is_over.is_set():
            self.served.attempt(("A12", "hold:1"), wait=3)

    def refused_request(self):
        answer = self.served.get("/v1/objects")
        return answer if answer.status == 503 and answer.problem == "too-many-requests" else None

    def test_followers_beyond_the_limit_are_refused(self):
        connection = self.served.connection()
        connection.request("GET", "/v1/events")
        self.assertEqual(connection.getresponse().status, 200)
        self.assertEqual(self.served.get("/v1/events").problem, "too-many-followers")
        connection.close()
        until(lambda: self.served.get("/v1/events?follow=false").status == 200)

    def test_an_idle_server_uses_no_processor(self):
        def ticks():
            with open(f"/proc/{self.served.process.pid}/stat", encoding="ascii") as file:
                return sum(map(int, file.read().rsplit(")", 1)[1].split()[11:13]))
        time.sleep(1)
        before = ticks()
        time.sleep(3)
        self.assertLessEqual(ticks() - before, 3 * os.sysconf("SC_CLK_TCK") // 50)


if __name__ == "__main__":
    unittest.main()
