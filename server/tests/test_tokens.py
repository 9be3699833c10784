"""Who may do what: tokens, TLS, and where the server listens."""
import hashlib
import http.client
import os
import re
import signal
import socket
import ssl
import subprocess
import tempfile
import unittest

from served import Served, until

SECRETS = {"reader": "s-read-1", "writer": "s-write-2", "typist": "s-types-3", "chief": "s-admin-4", "all": "s-all-5"}
RIGHTS = {"reader": "read", "writer": "read,write", "typist": "types", "chief": "read,admin", "all": "read,write,types,admin"}


def line(name):
    return f"{name} {RIGHTS[name]} {hashlib.sha256(SECRETS[name].encode()).hexdigest()}\n"


def bearer(name):
    return {"Authorization": f"Bearer {SECRETS[name]}"}


class Tokens(unittest.TestCase):
    @classmethod
    def setUpClass(cls):
        cls.folder = tempfile.TemporaryDirectory()
        cls.file = os.path.join(cls.folder.name, "tokens")
        cls.write(SECRETS)
        cls.served = Served("--tokens", cls.file)
        examples = os.path.join(os.path.dirname(os.path.abspath(__file__)), "..", "..", "examples")
        with open(os.path.join(examples, "seats.type"), encoding="ascii") as file:
            cls.text = file.read()
        cls.served.put("/v1/types/seats", cls.text, bearer("all"))
        cls.served.put("/v1/objects/A12", '{"type": "seats", "recovery": "undo"}', bearer("all"))
        cls.served.put("/v1/decisions/known", '{"outcome": "abort"}', bearer("all"))

    @classmethod
    def tearDownClass(cls):
        cls.served.close()
        cls.folder.cleanup()

    @classmethod
    def write(cls, names):
        with open(cls.file, "w", encoding="ascii") as file:
            file.write("# tokens of the tests\n" + "".join(map(line, names)))

    def test_each_right_is_for_its_routes(self):
        free = '{"calls": [{"object": "A12", "call": "free"}]}'
        routes = [("GET", "/v1/types", None, "read"), ("GET", "/v1/types/seats", None, "read"), ("GET", "/v1/objects", None, "read"),
                  ("GET", "/v1/objects/A12", None, "read"), ("GET", "/v1/snapshot?object=A12", None, "read"), ("GET", "/v1/status", None, "read"),
                  ("GET", "/v1/events?follow=false", None, "read"), ("GET", "/metrics", None, "read"), ("GET", "/v1/transactions", None, "read"),
                  ("GET", "/v1/decisions/known", None, "read"), ("GET", "/v1/prepared", None, "read"),
                  ("PUT", "/v1/types/seats", self.text, "types"), ("PUT", "/v1/objects/A12", '{"type": "seats", "recovery": "undo"}', "types"),
                  ("POST", "/v1/objects", '{"objects": [{"name": "A12", "type": "seats", "recovery": "undo"}]}', "types"),
                  ("POST", "/v1/attempts", free, "write"), ("POST", "/v1/transactions", "", "write")]
        for method, path, body, right in routes:
            for name, rights in RIGHTS.items():
                answer = self.served.ask(method, path, body, bearer(name))
                self.assertEqual(answer.status < 300, right in rights.split(","), (method, path, name, answer.body))
                if answer.status >= 300:
                    self.assertEqual((answer.status, answer.problem, answer.json["right"]), (403, "no-right", right))
            for headers in ({}, {"Authorization": "Bearer s-other"}, {"Authorization": SECRETS["all"]}, {"Authorization": "Basic czphbGw="}):
                answer = self.served.ask(method, path, body, headers)
                self.assertEqual((answer.status, answer.problem), (401, "no-token"))
                self.assertIn("Bearer", answer.headers["www-authenticate"])

    def test_some_routes_need_no_token(self):
        for path in ("/healthz", "/readyz", "/openapi.json", "/", "/page.js", "/page.css", "/problems/busy"):
            self.assertEqual(self.served.get(path).status, 200, path)

    def test_a_transaction_is_its_tokens(self):
        begun = self.served.ask("POST", "/v1/transactions", "", bearer("writer")).json["id"]
        path = f"/v1/transactions/{begun}"
        self.assertEqual(self.served.get(path, **bearer("reader")).problem, "no-right")
        self.assertEqual(self.served.ask("POST", path + "/commit", "", bearer("all")).status, 200)
        begun = self.served.ask("POST", "/v1/transactions", "", bearer("writer")).json["id"]
        path = f"/v1/transactions/{begun}"
        self.assertEqual(self.served.ask("POST", path + "/abort", "", bearer("reader")).problem, "no-right")
        self.assertEqual(self.served.ask("POST", path + "/abort", "", {}).problem, "no-token")
        self.assertEqual(self.served.ask("POST", path + "/abort", "", bearer("chief")).status, 200)
        self.assertEqual(self.served.get(path, **bearer("writer")).json["cause"], "admin")

    def test_whoever_may_write_or_is_in_charge_decides(self):
        begun = self.served.ask("POST", "/v1/transactions", "", bearer("writer")).json["id"]
        prepare = ("POST", f"/v1/transactions/{begun}/prepare", '{"key": "held", "for": 60}')
        self.assertEqual(self.served.ask(*prepare, bearer("typist")).json["right"], "write")
        self.assertEqual(self.served.ask(*prepare, bearer("reader")).problem, "no-right")
        self.assertEqual(self.served.ask(*prepare, bearer("writer")).status, 200)
        decide = ("PUT", "/v1/decisions/held", '{"outcome": "commit"}')
        self.assertEqual(self.served.ask(*decide, {}).problem, "no-token")
        for name in ("reader", "typist"):
            self.assertEqual(self.served.ask(*decide, bearer(name)).json["right"], "write")
        for name in ("chief", "writer", "all"):
            self.assertEqual(self.served.ask(*decide, bearer(name)).status, 200)

    def test_a_token_that_is_revoked_is_none(self):
        self.assertEqual(self.served.get("/v1/types", **bearer("reader")).status, 200)
        self.write([name for name in SECRETS if name != "reader"])
        self.served.process.send_signal(signal.SIGHUP)
        until(lambda: self.served.get("/v1/types", **bearer("reader")).status == 401)
        with open(self.file, "a", encoding="ascii") as file:
            file.write("nonsense\n")
        self.served.process.send_signal(signal.SIGHUP)
        until(lambda: "the tokens stay as they were" in self.served.log())
        self.assertEqual(self.served.get("/v1/types", **bearer("writer")).status, 200)
        self.write(SECRETS)
        self.served.process.send_signal(signal.SIGHUP)
        until(lambda: self.served.get("/v1/types", **bearer("reader")).status == 200)

    def test_no_secret_is_in_the_log(self):
        self.served.get("/v1/types", Authorization="Bearer s-unknown-9")
        self.served.ask("POST", "/v1/attempts", "{}", bearer("reader"))
        until(lambda: '"caller":"reader"' in self.served.log())
        for secret in [*SECRETS.values(), "s-unknown-9", *re.findall("[0-9a-f]{64}", "".join(map(line, SECRETS)))]:
            self.assertNotIn(secret, self.served.log())


class Tls(unittest.TestCase):
    @classmethod
    def setUpClass(cls):
        cls.folder = tempfile.TemporaryDirectory()
        cls.certificate, cls.key = (os.path.join(cls.folder.name, name) for name in ("cert.pem", "key.pem"))
        subprocess.run(["openssl", "req", "-x509", "-newkey", "ec", "-pkeyopt", "ec_paramgen_curve:P-256", "-nodes", "-days", "2", "-subj", "/CN=localhost",
                        "-addext", "subjectAltName=DNS:localhost", "-keyout", cls.key, "-out", cls.certificate], check=True, capture_output=True)
        subprocess.run(["openssl", "pkcs8", "-topk8", "-nocrypt", "-in", cls.key, "-out", cls.key + "8"], check=True, capture_output=True)
        cls.served = Served("--tls", cls.certificate, cls.key + "8", "--patience", "2")

    @classmethod
    def tearDownClass(cls):
        cls.served.close()
        cls.folder.cleanup()

    def curl(self, *words):
        return subprocess.run(["curl", "-s", "--cacert", self.certificate, *words], capture_output=True, text=True, check=False)

    def test_it_is_spoken(self):
        told = self.curl("-w", "%{http_version}", f"https://localhost:{self.served.port}/healthz")
        self.assertEqual((told.stdout, told.returncode), ("ok\n2", 0))
        self.assertEqual(self.curl("--http1.1", "-w", "%{http_version}", f"https://localhost:{self.served.port}/healthz").stdout, "ok\n1.1")

    def test_another_host_is_refused_by_the_client(self):
        self.assertEqual(self.curl(f"https://127.0.0.1:{self.served.port}/healthz").returncode, 60)

    def test_http_on_its_port_is_closed(self):
        connection = http.client.HTTPConnection("127.0.0.1", self.served.port, timeout=10)
        with self.assertRaises((OSError, http.client.HTTPException)):
            connection.request("GET", "/healthz")
            connection.getresponse()
        connection.close()

    def test_who_says_nothing_is_left(self):
        with socket.create_connection(("127.0.0.1", self.served.port), timeout=10) as one:
            self.assertEqual(one.recv(1), b"")

    def test_old_versions_are_refused(self):
        context = ssl.SSLContext(ssl.PROTOCOL_TLS_CLIENT)
        context.check_hostname, context.verify_mode = False, ssl.CERT_NONE
        context.maximum_version = ssl.TLSVersion.TLSv1_1
        with socket.create_connection(("127.0.0.1", self.served.port), timeout=10) as one, self.assertRaises(ssl.SSLError):
            context.wrap_socket(one)


class Open(unittest.TestCase):
    def test_a_page_from_elsewhere_may_not_ask(self):
        one = Served()
        try:
            own = f"127.0.0.1:{one.port}"
            for headers in ({"Origin": "http://shop.example"}, {"Host": "shop.example"}, {"Host": "shop.example", "Origin": "http://shop.example"}):
                answer = one.ask("POST", "/v1/transactions", "", headers)
                self.assertEqual((answer.status, answer.problem), (403, "foreign-origin"), headers)
            for headers in ({"Origin": f"http://{own}"}, {"Host": f"localhost:{one.port}"}):
                self.assertEqual(one.ask("POST", "/v1/transactions", "", headers).status, 201, headers)
        finally:
            one.close()

    def test_elsewhere_than_on_the_loopback_it_needs_tls_and_tokens(self):
        one = Served()
        try:
            command = [*one.process.args]
            command[command.index("--listen") + 1] = "0.0.0.0:0"
            command[command.index("--data") + 1] = os.path.join(one.folder, "other")
            told = subprocess.run(command, capture_output=True, text=True, timeout=20, check=False)
            self.assertEqual((told.returncode, "--insecure" in told.stderr), (3, True))
        finally:
            one.close()


if __name__ == "__main__":
    unittest.main()
