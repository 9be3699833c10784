"""Open transactions: who waits for whom, circles, idle ones, ends."""
import time
import unittest

from served import InBackground, Served, until


class Transactions(unittest.TestCase):
    @classmethod
    def setUpClass(cls):
        cls.served = Served("--most-open", "8", "--outcomes", "100000")
        cls.served.add("seats", "undo", *[f"S{n}" for n in range(12)])

    @classmethod
    def tearDownClass(cls):
        cls.served.close()

    def tearDown(self):
        for one in self.served.get("/v1/transactions").json["transactions"]:
            self.served.post(f"/v1/transactions/{one['id']}/abort")

    def test_one_is_begun_called_and_committed(self):
        one = self.served.begin()
        self.assertEqual(one.call(("S0", "hold:1"), ("S0", "free")).json, {"replies": ["ok", "2"]})
        self.assertEqual((one.known()["state"], one.known()["operations"]), ("open", 2))
        self.assertEqual(self.served.get("/v1/snapshot?object=S0&call=free").json["objects"][0]["reply"], "3")
        self.assertEqual((one.rollback(1).status, one.rollback(2).problem), (200, "bad-rollback"))
        self.assertEqual([one.commit().json["state"] for _ in range(2)], ["committed", "committed"])
        self.assertEqual((one.known()["state"], one.abort().problem, one.call(("S0", "free")).problem), ("committed", "ended", "ended"))
        self.assertEqual(self.served.get("/v1/snapshot?object=S0&call=free").json["objects"][0]["reply"], "2")

    def test_a_call_that_isnt_done_leaves_those_before_it(self):
        one = self.served.begin()
        answer = one.call(("S1", "hold:1"), ("S1", "cancel:1"), ("S1", "free"))
        self.assertEqual((answer.problem, answer.json["place"], answer.json["replies"]), ("illegal", 1, ["ok"]))
        self.assertEqual((one.known()["operations"], one.abort().status), (1, 200))
        self.assertEqual(one.abort().json["state"], "aborted")

    def test_a_call_waits_until_it_may_go(self):
        one, other = self.served.begin(), self.served.begin()
        one.call(("S2", "hold:1"))
        answer = other.call(("S2", "hold:1"))
        self.assertEqual((answer.problem, answer.json["blocker"]), ("busy", one.name))
        start = time.monotonic()
        self.assertEqual(other.call(("S2", "hold:1"), wait=0.3).problem, "busy")
        self.assertGreater(time.monotonic() - start, 0.25)
        waiting = InBackground(lambda: other.call(("S2", "hold:1"), wait=20))
        until(lambda: other.known()["waits_for"] == one.name)
        one.commit()
        self.assertEqual(waiting.result().json, {"replies": ["taken"]})
        other.abort()

    def test_an_attempt_waits_until_it_may_go(self):
        one = self.served.begin()
        one.call(("S3", "hold:1"))
        waiting = InBackground(lambda: self.served.attempt(("S3", "hold:1"), ("S3", "book:1"), wait=20))
        until(lambda: self.served.get("/v1/status").json["waiting"] > 0)
        one.abort()
        self.assertEqual(waiting.result().json, {"replies": ["ok", "ok"]})

    def test_a_rollback_lets_others_go(self):
        one = self.served.begin()
        one.call(("S4", "hold:1"))
        waiting = InBackground(lambda: self.served.attempt(("S4", "hold:1"), wait=20))
        until(lambda: self.served.get("/v1/status").json["waiting"] > 0)
        one.rollback(1)
        self.assertEqual(waiting.result().json, {"replies": ["ok"]})
        one.abort()

    def test_the_youngest_of_a_circle_is_aborted(self):
        one, other = self.served.begin(), self.served.begin()
        one.call(("S5", "hold:1"))
        other.call(("S6", "hold:1"))
        waiting = InBackground(lambda: one.call(("S6", "hold:1"), wait=20))
        until(lambda: one.known()["waits_for"] == other.name)
        answer = other.call(("S5", "hold:1"), wait=20)
        self.assertEqual((answer.problem, answer.json["waited_for"]), ("deadlock", one.name))
        self.assertEqual(waiting.result().json, {"replies": ["ok"]})
        self.assertEqual((other.known()["state"], other.known()["cause"]), ("aborted", "deadlock"))
        one.abort()

    def test_a_younger_one_goes_behind_an_older_one_that_waits(self):
        holder, older, younger = self.served.begin(), self.served.begin(), self.served.begin()
        holder.call(("S10", "hold:1"))
        first = InBackground(lambda: older.call(("S10", "hold:1"), wait=20))
        until(lambda: older.known()["waits_for"] == holder.name)
        second = InBackground(lambda: younger.call(("S10", "hold:1"), wait=20))
        until(lambda: younger.known()["waits_for"] == older.name)
        holder.abort()
        self.assertEqual(first.result().json, {"replies": ["ok"]})
        older.abort()
        self.assertEqual(second.result().json, {"replies": ["ok"]})

    def test_many_that_wait_for_one_seat_get_it_one_after_the_other(self):
        names = [f"a{n}" for n in range(20)]
        body = {"calls": [{"object": "S11", "call": "hold:1"}, {"object": "S11", "call": "release:1"}], "wait": 20}
        holder = self.served.begin()
        holder.call(("S11", "hold:1"))
        waiting = [InBackground(lambda: self.served.post("/v1/attempts", body)) for _ in names]
        until(lambda: self.served.get("/v1/status").json["waiting"] >= len(names))
        holder.abort()
        self.assertEqual({one.result().status for one in waiting}, {200})

    def test_one_of_which_nothing_is_asked_is_aborted(self):
        one = self.served.begin(idle=0.5)
        one.call(("S7", "hold:1"))
        self.assertEqual(self.served.attempt(("S7", "hold:1"), wait=10).json, {"replies": ["ok"]})
        self.assertEqual((one.known()["cause"], one.commit().problem), ("idle", "ended"))
        for idle in (-1, 3601, "x"):
            self.assertIn(self.served.post("/v1/transactions", {"idle": idle}).problem, ("out-of-range", "bad-body"))

    def test_one_is_committed_once_under_a_key(self):
        one, other = self.served.begin(), self.served.begin()
        one.call(("S8", "hold:1"))
        self.assertEqual([one.commit("t:1").status for _ in range(2)], [200, 200])
        other.call(("S8", "free"))
        self.assertEqual((other.commit("t:1").status, other.commit("t:1").status), (200, 200))
        self.assertEqual(self.served.post("/v1/transactions/1.999999/commit", headers={"Idempotency-Key": "t:1"}).status, 200)

    def test_one_token_has_so_many(self):
        some = [self.served.begin() for _ in range(8)]
        answer = self.served.post("/v1/transactions")
        self.assertEqual((answer.problem, answer.status, answer.headers["retry-after"]), ("too-many-of-token", 429, "1"))
        self.assertEqual(len(self.served.get("/v1/transactions").json["transactions"]), 8)
        for one in some:
            one.abort()

    def test_who_waits_and_goes_away_waits_no_more(self):
        one = self.served.begin()
        one.call(("S9", "hold:1"))
        connection = self.served.connection()
        connection.request("POST", "/v1/attempts", '{"calls": [{"object": "S9", "call": "hold:1"}], "wait": 60}')
        until(lambda: self.served.get("/v1/status").json["waiting"] > 0)
        connection.close()
        until(lambda: self.served.get("/v1/status").json["waiting"] == 0)
        one.abort()

    def test_one_that_isnt_there_is_told(self):
        self.assertEqual(self.served.get("/v1/transactions/1.999999").problem, "no-transaction")
        self.assertEqual(self.served.post("/v1/transactions/9.0/commit").problem, "no-transaction")
        one = self.served.begin()
        self.assertEqual(one.rollback(-1).problem, "bad-body")
        one.abort()


if __name__ == "__main__":
    unittest.main()
