"""Transactions that are prepared: they are held until somebody decides them, over restarts and ends of epochs, or their time is over."""
import time
import unittest

from served import InBackground, Served, of_fake, until


def decide(served, key, outcome):
    return served.put(f"/v1/decisions/{key}", {"outcome": outcome})


class Decisions(unittest.TestCase):
    @classmethod
    def setUpClass(cls):
        cls.served = Served()
        cls.served.add("seats", "undo", *[f"S{n}" for n in range(8)])

    @classmethod
    def tearDownClass(cls):
        cls.served.close()

    def tearDown(self):
        for one in self.served.get("/v1/prepared").json["prepared"]:
            decide(self.served, one["key"], "abort")
        for one in self.served.get("/v1/transactions").json["transactions"]:
            self.served.post(f"/v1/transactions/{one['id']}/abort")

    def prepared(self, name, key, seconds=60, call="hold:1"):
        one = self.served.begin()
        self.assertEqual(one.call((name, call)).status, 200)
        answer = one.prepare(key, seconds)
        self.assertEqual(answer.status, 200, answer.body)
        return one

    def free(self, name):
        return self.served.get(f"/v1/snapshot?object={name}&call=free").json["objects"][0]["reply"]

    def test_only_a_decision_ends_it(self):
        before = time.time()
        one = self.prepared("S0", "guest:0", 60)
        told = one.known()
        self.assertEqual((told["state"], told["key"], told["operations"]), ("prepared", "guest:0", 1))
        self.assertTrue(before + 60 <= told["until"] <= time.time() + 61)
        for asked in (one.call(("S0", "free")), one.commit(), one.commit("other"), one.abort(), one.rollback(1)):
            self.assertEqual((asked.status, asked.problem, asked.json["key"]), (409, "prepared", "guest:0"))
        self.assertEqual(self.served.attempt(("S0", "hold:1")).json["blocker"], one.name)
        self.assertEqual(self.free("S0"), "3")
        self.assertEqual(self.served.get("/v1/decisions/guest:0").json, {"key": "guest:0", "outcome": "prepared", "transaction": one.name, "until": told["until"]})
        self.assertEqual([decide(self.served, "guest:0", "commit").json for _ in range(2)], [{"key": "guest:0", "outcome": "committed"}] * 2)
        self.assertEqual((self.free("S0"), one.known()["state"]), ("2", "committed"))
        answer = decide(self.served, "guest:0", "abort")
        self.assertEqual((answer.status, answer.problem, answer.json["outcome"]), (409, "decided", "committed"))
        self.assertEqual(self.served.get("/v1/decisions/guest:0").json, {"key": "guest:0", "outcome": "committed", "replies": []})
        self.assertEqual(one.prepare("guest:0", 60).problem, "ended")

    def test_what_is_aborted_lets_others_go(self):
        one = self.prepared("S1", "guest:1")
        waiting = InBackground(lambda: self.served.attempt(("S1", "hold:1"), wait=20))
        until(lambda: self.served.get("/v1/status").json["waiting"] > 0)
        self.assertEqual(decide(self.served, "guest:1", "abort").json, {"key": "guest:1", "outcome": "aborted"})
        self.assertEqual(waiting.result().json, {"replies": ["ok"]})
        self.assertEqual((one.known()["state"], one.known()["cause"], one.abort().status), ("aborted", "decided", 200))
        self.assertEqual(decide(self.served, "guest:1", "commit").json["outcome"], "aborted")

    def test_it_is_prepared_once(self):
        one, other = self.prepared("S2", "guest:2", 60), self.served.begin()
        told = one.prepare("guest:2", 600).json
        self.assertEqual((told["state"], told["until"]), ("prepared", one.known()["until"]))
        self.assertEqual(one.prepare("guest:3", 60).problem, "prepared")
        self.assertEqual(other.prepare("guest:2", 60).problem, "key-prepared")
        self.assertEqual(self.served.attempt(("S3", "free"), key="guest:2").problem, "key-prepared")
        self.assertEqual(other.commit("guest:2").problem, "key-prepared")
        self.assertIn({"id": one.name, "key": "guest:2", "until": told["until"]},
                      [{word: each[word] for word in ("id", "key", "until")} for each in self.served.get("/v1/prepared").json["prepared"]])

    def test_keys_that_nobody_has(self):
        self.assertEqual((self.served.get("/v1/decisions/none").status, self.served.get("/v1/decisions/none").problem), (404, "no-key"))
        self.assertEqual(decide(self.served, "none", "commit").problem, "no-key")
        self.assertEqual(decide(self.served, "never", "abort").status, 200)
        one = self.served.begin()
        answer = one.prepare("never", 60)
        self.assertEqual((answer.problem, answer.json["outcome"]), ("key-aborted", "aborted"))
        self.assertEqual(self.served.attempt(("S3", "free"), key="never").problem, "key-aborted")
        self.assertEqual(one.commit("once").status, 200)
        self.assertEqual(self.served.begin().prepare("once", 60).problem, "key-committed")

    def test_the_key_of_an_attempt_tells_its_replies(self):
        self.served.attempt(("S3", "free"), ("S3", "free"), key="twice")
        self.assertEqual(self.served.get("/v1/decisions/twice").json, {"key": "twice", "outcome": "committed", "replies": ["3", "3"]})

    def test_what_nobody_decides_is_aborted(self):
        one = self.prepared("S4", "guest:4", 1.5)
        self.assertEqual(self.served.attempt(("S4", "hold:1"), wait=10).json, {"replies": ["ok"]})
        self.assertLessEqual(one.known()["state"], "aborted")
        self.assertEqual((one.known()["cause"], self.served.get("/v1/decisions/guest:4").json["outcome"]), ("undecided", "aborted"))
        self.assertEqual(decide(self.served, "guest:4", "commit").problem, "decided")

    def test_what_cant_be_read_is_told(self):
        one = self.served.begin()
        for body, problem in (({"key": "a b", "for": 1}, "bad-name"), ({"key": "k", "for": -1}, "out-of-range"), ({"key": "k", "for": 2_592_001}, "out-of-range"),
                              ({"for": 1}, "bad-body"), ({"key": "k"}, "bad-body"), ({"key": "k", "for": "1"}, "bad-body"), ("", "bad-body")):
            self.assertEqual(self.served.post(one.path + "/prepare", body).problem, problem, body)
        self.assertEqual(self.served.post(one.path + "/prepare", {"key": "k", "for": 1}, {"Idempotency-Key": "l"}).problem, "bad-header")
        self.assertEqual((decide(self.served, "a%20b", "abort").problem, decide(self.served, "k", "perhaps").problem), ("bad-name", "bad-body"))
        self.assertEqual(self.served.get("/v1/decisions/a%20b").problem, "bad-name")
        self.assertEqual(self.served.post(one.path + "/prepare", {"for": 60}, {"Idempotency-Key": "by:header"}).json["key"], "by:header")

    def test_it_is_counted(self):
        self.prepared("S5", "guest:5")
        self.assertIn("colockd_prepared_transactions 1\n", self.served.get("/metrics").body.decode())
        decide(self.served, "guest:5", "abort")
        text = self.served.get("/metrics").body.decode()
        self.assertIn("colockd_prepared_transactions 0\n", text)
        self.assertIn('colockd_aborts_total{cause="decided"}', text)


class Restarts(unittest.TestCase):
    def setUp(self):
        self.served = Served("--epoch-drain", "1", "--drain", "60")
        self.served.add("seats", "undo", "A", "B")

    def tearDown(self):
        self.served.close()

    def prepared(self, name, key, seconds):
        one = self.served.begin()
        self.assertEqual(one.call((name, "hold:1")).status, 200)
        self.assertEqual(one.prepare(key, seconds).status, 200)
        return one

    def keys(self):
        return {one["key"]: one["id"] for one in self.served.get("/v1/prepared").json["prepared"]}

    def free(self, name):
        return self.served.get(f"/v1/snapshot?object={name}&call=free").json["objects"][0]["reply"]

    def restart(self):
        self.served.end()
        self.served.start()

    def kill(self):
        self.served.kill()
        self.served.start()

    def end_epoch(self):
        name = f"new/{time.monotonic_ns()}"
        self.assertEqual(self.served.put(f"/v1/objects/{name}", {"type": "seats", "recovery": "undo"}).status, 201)

    def kill_store(self):
        self.served.kill_store()
        until(lambda: self.served.get("/readyz").status == 200)

    def test_a_hold_survives_them_all(self):
        one = self.prepared("A", "a", 600)
        hold = one.known()["until"]
        for ends in (self.kill_store, self.end_epoch, self.kill, self.restart, self.kill, self.end_epoch, self.kill_store):
            ends()
            told = one.known()
            self.assertEqual((told["state"], told["key"], told["until"], self.keys()), ("prepared", "a", hold, {"a": one.name}), ends)
            answer = self.served.attempt(("A", "hold:1"))
            self.assertEqual((answer.problem, answer.json["blocker"]), ("busy", one.name), ends)
        waiting = InBackground(lambda: self.served.attempt(("A", "hold:1"), wait=20))
        until(lambda: self.served.get("/v1/status").json["waiting"] > 0)
        self.assertEqual(decide(self.served, "a", "commit").status, 200)
        self.assertEqual(waiting.result().json, {"replies": ["taken"]})
        self.kill()
        self.assertEqual((self.free("A"), self.keys()), ("2", {}))
        self.assertEqual((decide(self.served, "a", "commit").status, decide(self.served, "a", "abort").json["outcome"]), (200, "committed"))

    def test_its_time_goes_on_over_a_restart(self):
        other, one = self.prepared("B", "b", 600), self.prepared("A", "a", 6)
        over = one.known()["until"]
        self.served.kill()
        time.sleep(max(0, over - time.time()) + 0.5)
        self.served.start()
        until(lambda: self.served.get("/v1/decisions/a").json["outcome"] == "aborted")
        self.assertEqual((self.keys(), one.known()["cause"]), ({"b": other.name}, "undecided"))
        self.assertEqual(self.served.attempt(("A", "hold:1")).json, {"replies": ["ok"]})

    def test_an_end_doesnt_wait_for_it(self):
        self.prepared("A", "a", 600)
        start = time.monotonic()
        self.restart()
        self.assertLess(time.monotonic() - start, 20)
        self.assertEqual(list(self.keys()), ["a"])

    def restarted(self, **how):
        self.served.misbehave(**how)
        self.served.kill_store()
        until(lambda: self.served.get("/v1/snapshot?object=A").status == 200)

    @of_fake
    def test_a_prepare_whose_answer_was_lost_is_asked_again(self):
        for wrong, status in (({"lose_at": "prepare"}, 200), ({"die_at": "prepare"}, 410)):
            self.restarted(**wrong)
            one = self.served.begin()
            one.call(("A", "free"))
            answer = one.prepare(f"k{status}", 600)
            self.assertEqual((answer.status, self.keys()), (status, {"k200": self.keys()["k200"]}), answer.body)

    @of_fake
    def test_a_decision_whose_answer_was_lost_is_asked_again(self):
        one = self.prepared("A", "a", 600)
        self.restarted(lose_at="decide")
        self.assertEqual(decide(self.served, "a", "commit").status, 200)
        until(lambda: one.known()["state"] == "committed")
        self.assertEqual((self.keys(), self.free("A")), ({}, "2"))


if __name__ == "__main__":
    unittest.main()
