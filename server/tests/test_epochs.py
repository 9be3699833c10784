"""Ends of epochs: what is open goes on where each yes is strong, and is aborted where one is one-way."""
import json
import os
import time
import unittest

from served import HERE, IS_FAKE, InBackground, Served, calls_of, of_fake, until

ONE_WAY = os.path.join(HERE, "..", "..", "cases", "files", "oneway.type")
SEATS = {"type": "seats", "recovery": "undo"}


class Epochs(unittest.TestCase):
    def setUp(self):
        self.served = Served(*self.words())
        self.served.add("seats", "undo", "A", "B")
        self.added = 0

    def tearDown(self):
        self.served.close()

    @staticmethod
    def words():
        return ()

    def extend(self):
        """An object is added, with which an epoch ends; how many seconds that took."""
        self.added, start = self.added + 1, time.monotonic()
        answer = self.served.post("/v1/objects", {"objects": [{"name": f"more/{self.added}", **SEATS}]})
        self.assertEqual(answer.status, 201, answer.body)
        return time.monotonic() - start

    def holder(self, name="A", **how):
        """A transaction that holds seat 1."""
        one = self.served.begin(**how)
        self.assertEqual(one.call((name, "hold:1")).json, {"replies": ["ok"]})
        return one

    def status(self):
        return self.served.get("/v1/status").json

    def metrics(self):
        return self.served.get("/metrics").body.decode()

    def free(self, name):
        return self.served.get(f"/v1/snapshot?object={name}&call=free").json["objects"][0]["reply"]


def life_of(transaction):
    """The life that began it."""
    return int(transaction.name.split(".")[0])


class Strong(Epochs):
    @staticmethod
    def words():
        return "--epoch-drain", "120", "--most-open", "8"

    def test_what_is_open_outlives_epochs(self):
        one, other = self.holder(), self.served.begin()
        calls = InBackground(lambda: other.call(("A", "hold:1"), wait=60))
        tries = InBackground(lambda: self.served.attempt(("A", "hold:1"), wait=60))
        until(lambda: self.status()["waiting"] == 2)
        life = life_of(other)
        for count in range(3):
            self.assertLess(self.extend(), 60)
            young = self.served.begin()
            self.assertEqual(life_of(young), life + count + 1)
            for asked in (young.call(("A", "hold:1")), self.served.attempt(("A", "hold:1"))):
                self.assertEqual((asked.status, asked.problem, asked.json["blocker"]), (409, "busy", one.name))
            told = one.known()
            self.assertEqual((told["state"], told["id"], told["operations"]), ("open", one.name, count + 1))
            self.assertEqual(one.call(("B", "free")).json, {"replies": ["3"]})
            until(lambda: other.known()["waits_for"] == one.name and self.status()["waiting"] == 2)
            young.abort()
        self.assertEqual((one.commit().json["state"], one.commit().status, one.known()["state"]), ("committed", 200, "committed"))
        self.assertEqual((calls.result().json, tries.result().json), ({"replies": ["taken"]}, {"replies": ["taken"]}))
        self.assertEqual((other.commit().status, self.free("A"), self.status()["open"]), (200, "2", []))
        text = self.metrics()
        self.assertNotIn('colockd_aborts_total{cause="epoch"}', text)
        self.assertIn("colockd_open_transactions 0\n", text)

    def test_a_rollback_and_an_abort_reach_behind_an_epoch(self):
        one = self.holder()
        self.extend()
        waiting = InBackground(lambda: self.served.attempt(("A", "hold:1"), ("A", "release:1"), wait=60))
        until(lambda: self.status()["waiting"] == 1)
        self.assertEqual((one.rollback(2).problem, one.rollback(1).status, waiting.result().json), ("bad-rollback", 200, {"replies": ["ok", "ok"]}))
        self.assertEqual(one.call(("A", "hold:1")).json, {"replies": ["ok"]})
        self.extend()
        waiting = InBackground(lambda: self.served.attempt(("A", "hold:1"), wait=60))
        until(lambda: self.status()["waiting"] == 1)
        self.assertEqual((one.abort().status, waiting.result().json), (200, {"replies": ["ok"]}))

    def test_a_circle_over_an_epoch_is_broken(self):
        one, other = self.holder("A"), self.holder("B")
        waiting = InBackground(lambda: one.call(("B", "hold:1"), wait=60))
        until(lambda: one.known()["waits_for"] == other.name)
        self.extend()
        answer = other.call(("A", "hold:1"), wait=60)
        self.assertEqual((answer.problem, answer.json["waited_for"]), ("deadlock", one.name))
        self.assertEqual((waiting.result().json, one.commit().status), ({"replies": ["ok"]}, 200))

    def test_it_is_prepared_in_a_later_epoch(self):
        one = self.holder()
        self.extend()
        self.assertEqual(one.prepare("guest:1", 600).json["id"], one.name)
        self.extend()
        self.assertEqual([each["id"] for each in self.served.get("/v1/prepared").json["prepared"]], [one.name])
        self.assertEqual(self.served.put("/v1/decisions/guest:1", {"outcome": "commit"}).status, 200)
        self.assertEqual((one.known()["state"], self.free("A")), ("committed", "2"))

    def test_one_that_is_idle_is_aborted_in_a_later_epoch(self):
        one = self.holder(idle=2)
        self.extend()
        until(lambda: one.known()["state"] == "aborted")
        self.assertEqual((one.known()["cause"], self.served.attempt(("A", "hold:1")).json), ("idle", {"replies": ["ok"]}))

    def test_a_number_of_another_epoch_is_no_name(self):
        one = self.holder()
        self.extend()
        life, begun = self.served.begin().name.split(".")
        self.assertGreater(int(begun), 0)
        for number in range(int(begun)):
            path = f"/v1/transactions/{life}.{number}"
            self.assertEqual(self.served.post(path + "/abort").problem, "no-transaction")
            self.assertEqual(self.served.post(path + "/commit", headers={"Idempotency-Key": f"guess:{number}"}).problem, "ended")
        self.assertEqual((one.known()["state"], self.free("A"), one.commit().status), ("open", "3", 200))

    def test_what_it_did_is_told_again_by_the_events_of_the_next_epoch(self):
        one = self.holder()
        self.extend()
        self.assertEqual(one.commit().status, 200)
        lines = self.served.get(f"/v1/events?from={life_of(one)}.0&object=A&follow=false").body.splitlines()
        told = [(int(event["at"].split(".")[0]), event["event"], event["call"]) for event in map(json.loads, lines)]
        self.assertEqual(told, [(life, "op", "hold:1") for life in (life_of(one), life_of(one) + 1)])

    def test_it_is_gone_with_the_store(self):
        one = self.holder()
        self.extend()
        self.served.kill_store()
        until(lambda: self.served.get("/readyz").status == 200)
        self.assertEqual((one.known()["cause"], one.commit().problem, self.free("A")), ("lost", "ended", "3"))

    def restarted(self, **how):
        """The store is killed, and the next one misbehaves so, where it is the fake."""
        self.served.misbehave(**how)
        self.served.kill_store()
        until(lambda: self.served.get("/v1/snapshot?object=A").status == 200)

    @of_fake
    def test_a_commit_whose_answer_was_lost_is_known_by_its_key_alone(self):
        for key, status, left, state in ((None, 503, "2", "unknown"), ("k", 200, "1", "committed")):
            self.restarted(lose_at="commit")
            one = self.served.begin()
            self.assertEqual(one.call(("A", f"hold:{3 - int(left)}")).json, {"replies": ["ok"]})
            self.extend()
            self.assertEqual((one.commit(key).status, self.free("A")), (status, left))
            # nobody is told that it was aborted
            self.assertEqual((one.known()["state"], one.commit(key).status), (state, status))
            self.assertEqual((one.abort().problem, one.abort().json["state"]), ("ended", state))

    def filled(self, count):
        """The life, once there are 16 attempts more with so many calls each."""
        answer = self.served.post("/v1/attempts", [{"calls": calls_of([("B", "free")] * count)}] * 16)
        self.assertEqual({each["status"] for each in answer.json}, {200})
        return self.status()["life"]

    def test_an_epoch_that_is_full_ends_as_well(self):
        """One is full with 32,768 events more than it began with; of the fake with 30."""
        self.restarted(full=30)
        one = self.holder(idle=600)
        until(lambda: self.filled(1 if IS_FAKE else 64) > life_of(one), 400)
        self.assertEqual(self.served.attempt(("A", "hold:1")).json["blocker"], one.name)
        self.assertEqual((one.commit().status, self.free("A")), (200, "2"))


class OneWay(Epochs):
    def setUp(self):
        super().setUp()
        with open(ONE_WAY, encoding="ascii") as file:
            self.assertEqual(self.served.put("/v1/types/oneway?recovery=undo", file.read()).status, 201)
        self.assertEqual(self.served.get("/v1/types/oneway?recovery=undo").json["checks"], {"undo": "yes one-way"})
        self.assertEqual(self.served.put("/v1/objects/W", {"type": "oneway", "recovery": "undo"}).status, 201)

    @staticmethod
    def words():
        return "--epoch-drain", "1", "--most-open", "2"

    def test_what_is_open_ends_with_its_epoch(self):
        one, other = self.holder(), self.served.begin()
        calls = InBackground(lambda: other.call(("A", "hold:1"), wait=60))
        tries = InBackground(lambda: self.served.attempt(("A", "hold:1"), wait=60))
        until(lambda: self.status()["waiting"] == 2)
        self.assertGreater(self.extend(), 0.9)
        self.assertEqual(tries.result().json, {"replies": ["ok"]})
        self.assertEqual((calls.result().problem, calls.answer.json["cause"]), ("ended", "epoch"))
        self.assertEqual((one.call(("A", "free")).problem, one.known()["cause"], one.commit().problem), ("ended", "epoch", "ended"))

    def test_that_it_has_ended_is_known_before_it_is_asked_for(self):
        some = [self.holder("A", idle=600), self.holder("B", idle=600)]
        self.assertEqual(self.served.post("/v1/transactions").problem, "too-many-of-token")
        self.extend()
        until(lambda: self.status()["open"] == [], 20)
        self.assertEqual([(one.known()["state"], one.known()["cause"]) for one in some], [("aborted", "epoch")] * 2)
        text = self.metrics()
        self.assertIn('colockd_aborts_total{cause="epoch"} 2\n', text)
        self.assertIn("colockd_open_transactions 0\n", text)
        self.assertEqual(self.served.begin().abort().status, 200)

    def test_what_ends_in_time_is_done(self):
        one = self.holder()
        waiting = InBackground(self.extend)
        time.sleep(0.3)
        self.assertEqual((one.commit().status, self.free("A")), (200, "2"))
        self.assertLess(waiting.result(), 20)

    def test_what_is_prepared_goes_on(self):
        one = self.holder()
        self.assertEqual(one.prepare("guest:1", 600).status, 200)
        self.extend()
        time.sleep(1.5)
        self.assertEqual((one.known()["state"], self.served.attempt(("A", "hold:1")).json["blocker"]), ("prepared", one.name))
        self.assertEqual(self.served.put("/v1/decisions/guest:1", {"outcome": "abort"}).status, 200)


if __name__ == "__main__":
    unittest.main()
