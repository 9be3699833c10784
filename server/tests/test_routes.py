"""Each route does what docs/server.md says."""
import json
import os
import subprocess
import unittest

from served import EXAMPLES, InBackground, Served, of_program, served, until


class Routes(unittest.TestCase):
    @classmethod
    def setUpClass(cls):
        cls.served = Served()
        cls.served.add("ctr2", "undo", "up", "down", "stalls/B.1")
        cls.served.add("seats", "undo", "A12", "A13")

    @classmethod
    def tearDownClass(cls):
        cls.served.close()

    def text(self, name):
        with open(os.path.join(EXAMPLES, name), encoding="ascii") as file:
            return file.read()

    # ---- how it is

    def test_it_is_alive_and_ready(self):
        self.assertEqual((self.served.get("/healthz").status, self.served.get("/readyz").body), (200, b"ready\n"))
        self.assertEqual(self.served.ask("HEAD", "/healthz").body, b"")

    def test_metrics_are_there(self):
        self.served.attempt(("up", "inc:1"))
        text = self.served.get("/metrics").body.decode()
        for name in ("commits_total", "aborts_total", "busy_calls", "wait_seconds_bucket", "deadlocks", "open_transactions",
                     "oldest_open_seconds", "epoch_events", "group_size_bucket", "commit_seconds_bucket", "request_seconds_bucket"):
            self.assertTrue(f"colockd_{name}" in text or name == "aborts_total", name)

    def test_each_answer_has_an_id(self):
        ids = {self.served.get(path).headers["x-request-id"] for path in ("/healthz", "/none", "/v1/objects", "/v1/attempts")}
        self.assertEqual(len(ids), 4)

    def test_the_description_is_of_the_routes_that_there_are(self):
        described = self.served.get("/openapi.json").json
        for path, methods in described["paths"].items():
            path = path.replace("{transaction}", "1.0").replace("{name}", "x").replace("{problem}", "busy").replace("{key}", "k")
            allowed = self.served.ask("PATCH", path).headers["allow"].lower().split(", ")
            self.assertEqual(sorted(allowed), sorted(key for key in methods if key in ("get", "put", "post")), path)

    def test_each_limit_is_in_the_description(self):
        described = self.served.get("/openapi.json").json
        names = {"large-body": 413, "long-path": 414, "too-many-of-token": 429, "too-many-open": 503, "too-many-connections": 503,
                 "too-many-requests": 503, "too-many-followers": 503, "slow-body": 408}
        for name, status in names.items():
            self.assertIn(f"(`{name}`, {status})", described["info"]["description"])
            self.assertEqual(self.served.get(f"/problems/{name}").body.splitlines()[0].decode(), f"{name}, status {status}")
        schemas = described["components"]["schemas"]
        self.assertEqual((schemas["Calls"]["maxItems"], schemas["Call"]["properties"]["call"]["maxLength"]), (64, 32))
        for name in ("S" * 64, "a/b.c:d_e-F"):
            self.assertRegex(name, schemas["NewObject"]["properties"]["name"]["pattern"])

    def test_problems_are_explained(self):
        answer = self.served.get("/problems/busy")
        self.assertEqual((answer.status, answer.body.splitlines()[0]), (200, b"busy, status 409"))
        self.assertEqual(self.served.get("/problems/none").problem, "no-route")

    def test_what_isnt_there_is_told(self):
        self.assertEqual(self.served.get("/v1/none").problem, "no-route")
        answer = self.served.ask("DELETE", "/v1/objects/up")
        self.assertEqual((answer.problem, answer.headers["allow"]), ("no-method", "GET, PUT"))

    # ---- types

    def test_types_are_put_once(self):
        text = self.text("stock.type")
        self.assertEqual(self.served.put("/v1/types/stock", text).status, 201)
        self.assertEqual(self.served.put("/v1/types/stock", "# the same\n" + text).status, 200)
        self.assertEqual(self.served.put("/v1/types/stock", self.text("ctr2.type")).problem, "name-taken")
        self.assertEqual(self.served.put("/v1/types/Stock", text).problem, "bad-name")

    def test_a_type_has_the_name_of_its_path(self):
        self.assertEqual(self.served.put("/v1/types/sold", self.text("ctr2.type")).status, 201)
        told = self.served.get("/v1/types/sold").json
        self.assertEqual((told["name"], told["operations"], told["conflicts"]["undo"]), ("sold", [["inc:1", "ok"], ["dec:1", "ok"]], [[0, 1], [1, 0]]))
        self.assertTrue(self.served.get("/v1/types/sold", Accept="text/plain").body.startswith(b"type sold\nstates 3\n"))

    def test_a_fault_has_its_line(self):
        answer = self.served.put("/v1/types/broken", self.text("ctr2.type").replace("end\n", ""))
        self.assertEqual((answer.problem, answer.json["fault"], answer.json["line"]), ("type-fault", "Missing", 14))
        self.assertEqual(self.served.get("/v1/types/broken").problem, "no-type")

    def test_a_type_is_checked_for_the_kinds_that_are_asked(self):
        counter = self.text("ctr2.type")
        answer = self.served.put("/v1/types/checked?recovery=undo&recovery=intentions", counter)
        self.assertEqual((answer.status, answer.json["recovery"]), (201, ["undo", "intentions"]))
        self.assertEqual(self.served.get("/v1/types/checked?recovery=undo").json["checks"], {"undo": "yes strong"})
        self.assertEqual(self.served.put("/v1/types/checked?recovery=all", counter).problem, "bad-query")

    @of_program
    def test_what_mends_a_type_is_told(self):
        text = self.text("ctr2.type").replace("conflict undo 1 0\n", "")
        answer = self.served.put("/v1/types/hasty?recovery=undo", text)
        self.assertEqual((answer.problem, answer.json["check"], answer.json["mend"]), ("type-refused", "no NotCommuting 1 0 0", ["conflict undo 1 0"]))
        self.assertEqual(self.served.put("/v1/types/hasty", text).status, 201)
        answer = self.served.put("/v1/objects/h", {"type": "hasty", "recovery": "undo"})
        self.assertEqual((answer.problem, answer.json["object"]), ("type-refused", "h"))

    # ---- objects

    def test_objects_are_put_once(self):
        wanted = {"type": "ctr2", "recovery": "undo"}
        self.assertEqual([self.served.put("/v1/objects/new/one", wanted).status for _ in range(2)], [201, 200])
        self.assertEqual(self.served.put("/v1/objects/new/one", {**wanted, "recovery": "escrow"}).problem, "name-taken")
        self.assertEqual(self.served.put("/v1/objects/n2", {**wanted, "type": "none"}).problem, "no-type")
        self.assertEqual(self.served.put("/v1/objects/n2", {**wanted, "recovery": "all"}).problem, "bad-body")
        self.assertEqual(self.served.put("/v1/objects/n%202", wanted).problem, "bad-name")

    def test_many_objects_are_added_side_by_side(self):
        wanted = {"type": "ctr2", "recovery": "undo"}
        asked = [InBackground(lambda n=n: self.served.put(f"/v1/objects/many/{n}", wanted).status) for n in range(20)]
        self.assertEqual({one.result() for one in asked}, {201})
        names = [one["name"] for one in self.served.get("/v1/objects?prefix=many/").json["objects"]]
        self.assertEqual(names, sorted(f"many/{n}" for n in range(20)))
        page = self.served.get("/v1/objects?prefix=many/&limit=3&after=many/1").json
        self.assertEqual(([one["name"] for one in page["objects"]], page["next"]), (["many/10", "many/11", "many/12"], "many/12"))

    def test_an_object_has_its_state(self):
        told = self.served.get("/v1/objects/stalls/B.1").json
        self.assertEqual((told["type"], told["recovery"], told["state"]), ("ctr2", "undo", 0))
        self.assertEqual(self.served.get("/v1/objects/none").problem, "no-object")

    # ---- attempts

    def test_an_attempt_is_done_whole(self):
        answer = self.served.attempt(("A12", "hold:1"), ("A12", "book:1"))
        self.assertEqual((answer.status, answer.json), (200, {"replies": ["ok", "ok"]}))
        answer = self.served.attempt(("A13", "hold:1"), ("A12", "release:1"))
        self.assertEqual((answer.problem, answer.json["place"], answer.json["object"]), ("illegal", 1, "A12"))
        self.assertEqual(self.served.get("/v1/snapshot?object=A13&call=free").json["objects"][0]["reply"], "3")

    def test_an_attempt_that_is_busy_says_who_is_in_the_way(self):
        with Begun(self.served) as one:
            one.call(("up", "inc:1"))
            answer = self.served.attempt(("stalls/B.1", "inc:1"), ("up", "dec:1"))
            if answer.status == 409 and answer.problem == "busy":
                self.assertEqual((answer.json["blocker"], answer.json["place"]), (one.name, 1))

    def test_the_same_key_gives_the_same_answer(self):
        before = self.served.state("down")
        answers = [self.served.attempt(("down", "inc:1"), key="order:1").json for _ in range(3)]
        self.assertEqual((answers, self.served.state("down")), ([{"replies": ["ok"]}] * 3, before + 1))
        self.assertEqual(self.served.post("/v1/attempts", {"calls": [{"object": "down", "call": "inc:1"}], "key": "order:1"}).status, 200)
        self.assertEqual(self.served.attempt(("down", "inc:1"), key="a/b").problem, "bad-name")

    def test_attempts_come_in_lists(self):
        one = {"calls": [{"object": "A12", "call": "free"}]}
        wrong = [{"calls": []}, {"calls": [{"object": "none", "call": "x"}]}, {**one, "key": "a b"}, {**one, "wait": 61}]
        told = self.served.post("/v1/attempts", [one, *wrong, one]).json
        self.assertEqual([each["status"] for each in told], [200, 422, 404, 422, 422, 200])
        self.assertEqual([self.served.post("/v1/attempts", [one] * count).status for count in (0, 256, 257)], [422, 200, 422])

    def test_what_cant_be_read_says_where(self):
        answer = self.served.post("/v1/attempts", '{"calls": [\n{"object": "up"}]}')
        self.assertEqual((answer.problem, answer.json["line"]), ("bad-body", 2))
        for body in ("", "{}", "[", "null", "1", '"a"', '{"calls": 1}', '{"calls": [], "more": 1}', "[" * 10_000, b"\xff\x00"):
            self.assertEqual(self.served.post("/v1/attempts", body).problem, "bad-body", body[:20])
        calls = [{"object": "up", "call": "inc:1"}] * 65
        self.assertEqual(self.served.post("/v1/attempts", {"calls": calls}).problem, "too-many-calls")
        for call in ("inc:2", "x"):
            self.assertEqual(self.served.attempt(("up", call)).problem, "no-call")
        for name, call in (("up\n", "inc:1"), ("up", "inc:1 0 inc:1"), ("up", "inc\n1"), ("", "inc:1"), ("up", "é"), ("a" * 65, "inc:1")):
            self.assertEqual(self.served.attempt((name, call)).problem, "bad-name", (name, call))

    # ---- reads

    def test_a_snapshot_is_of_one_moment(self):
        told = self.served.get("/v1/snapshot?object=A12&object=up").json
        self.assertEqual([one["name"] for one in told["objects"]], ["A12", "up"])
        self.assertEqual(len(told["at"].split(".")), 2)
        self.assertEqual(self.served.get("/v1/snapshot?object=up&call=inc:1").problem, "changes")
        self.assertEqual(self.served.get("/v1/snapshot").problem, "bad-query")
        self.assertEqual(self.served.get("/v1/snapshot?object=none").problem, "no-object")
        self.assertNotIn(".colockd", [one["name"] for one in self.served.get("/v1/snapshot?prefix=").json["objects"]])

    # ---- events

    def test_events_are_told_from_one_on(self):
        self.served.attempt(("A12", "free"), key="for:events")
        last = [json.loads(line) for line in self.served.get("/v1/events?last=3&follow=false").body.splitlines()]
        self.assertEqual([event["event"] for event in last], ["begin", "op", "commit"])
        self.assertEqual((last[1]["object"], last[1]["call"]), ("A12", "free"))
        again = self.served.get(f"/v1/events?from={last[1]['at']}&follow=false").body.splitlines()
        self.assertEqual([json.loads(line) for line in again], last[1:])
        sent = self.served.ask("GET", "/v1/events?follow=false", headers={"Accept": "text/event-stream", "Last-Event-ID": last[0]["at"]}).body
        self.assertEqual(sent.count(b"\ndata: "), 2)
        self.assertEqual(self.served.get("/v1/events?from=99.0").problem, "out-of-range")
        self.assertEqual(self.served.get("/v1/events?from=x").problem, "bad-query")

    def test_events_come_live(self):
        connection = self.served.connection()
        connection.request("GET", "/v1/events?object=A13")
        stream = connection.getresponse()
        self.served.attempt(("A12", "free"))
        self.served.attempt(("A13", "free"))
        event = json.loads(stream.readline())
        self.assertEqual((event["event"], event["object"], event["reply"]), ("op", "A13", "3"))
        connection.close()

    def test_the_status_is_for_the_page(self):
        with Begun(self.served) as one:
            one.call(("A13", "free"))
            status = until(lambda: self.served.get("/v1/status").json)
            self.assertIn(one.name, [open_one["id"] for open_one in status["open"]])
            self.assertIn({"object": "A13", "call": "free", "reply": "3"}, one.known()["held"])


class Logs(unittest.TestCase):
    def test_a_line_tells_of_each_slow_commit_and_each_epoch(self):
        with served("--slow", "0") as one:
            one.add("seats", "undo", "A")
            answer = one.attempt(("A", "free"))
            lines = until(lambda: [json.loads(line) for line in one.lines if "a slow commit" in line])
            self.assertEqual((lines[0]["level"], lines[0]["route"], lines[0]["id"]), ("WARN", "attempts", answer.headers["x-request-id"]))
            self.assertTrue(until(lambda: [line for line in one.lines if "another epoch has begun" in line]))
            one.kill_store()
            self.assertTrue(until(lambda: [line for line in one.lines if "the store has ended, and is started again" in line]))

    def test_lines_are_for_people_or_for_machines(self):
        with served() as one:
            self.assertTrue(all(json.loads(line)["timestamp"] for line in one.lines))
            command = [*one.process.args]
            command[command.index("--log") + 1] = "text"
            told = subprocess.run(command, capture_output=True, text=True, timeout=60, check=False)
            self.assertRegex(told.stderr, "ERROR.* it doesn't serve")


class Begun:
    """A transaction that is aborted behind it."""

    def __init__(self, served):
        self.one = served.begin()

    def __enter__(self):
        return self.one

    def __exit__(self, *_):
        self.one.abort()


if __name__ == "__main__":
    unittest.main()
