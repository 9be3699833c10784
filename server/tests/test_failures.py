"""What becomes of requests where the store or the server ends in their midst."""
import http.client
import json
import os
import signal
import socket
import subprocess
import threading
import time
import unittest

from served import InBackground, Served, of_fake, until


class Failures(unittest.TestCase):
    def setUp(self):
        self.served = Served()
        self.served.add("ctr2", "undo", "up")
        self.served.add("seats", "undo", "A12")

    def tearDown(self):
        self.served.close()

    def restarted(self, **how):
        """The store is killed, and the next one misbehaves so."""
        self.served.misbehave(**how)
        self.served.kill_store()
        until(lambda: self.served.get("/v1/snapshot?object=up").status == 200)

    # ---- the store ends

    def test_a_store_that_is_killed_is_started_again(self):
        self.served.attempt(("up", "inc:1"))
        old = self.served.kill_store()
        self.assertEqual(self.served.attempt(("up", "inc:1"), key="after").status, 200)
        self.assertEqual(self.served.state("up"), 2)
        self.assertNotEqual(self.served.store(), old)
        self.assertIn("the store has ended, and is started again", self.served.log())

    def test_what_was_open_is_gone_with_the_store(self):
        one = self.served.begin()
        one.call(("A12", "hold:1"))
        waiting = InBackground(lambda: self.served.attempt(("A12", "hold:1"), wait=20, key="waits"))
        until(lambda: self.served.get("/v1/status").json["waiting"] > 0)
        self.served.kill_store()
        self.assertEqual(waiting.result().json, {"replies": ["ok"]})
        self.assertEqual((one.known()["cause"], one.commit().problem), ("lost", "ended"))

    @of_fake
    def test_an_attempt_whose_answer_was_lost_is_known_by_its_key(self):
        self.restarted(lose_at="do")
        self.assertEqual(self.served.attempt(("up", "inc:1"), key="lost").json, {"replies": ["ok"]})
        self.assertEqual(self.served.state("up"), 1)

    @of_fake
    def test_without_a_key_nobody_knows_it(self):
        self.restarted(lose_at="do")
        answer = self.served.attempt(("up", "inc:1"))
        self.assertEqual((answer.status, answer.problem), (503, "outcome-unknown"))
        until(lambda: self.served.get("/readyz").status == 200)
        self.assertEqual(self.served.state("up"), 1)

    @of_fake
    def test_a_commit_whose_answer_was_lost_is_known_by_the_events(self):
        for wrong, status in (({"lose_at": "commit"}, 200), ({"die_at": "commit"}, 410)):
            self.restarted(**wrong)
            one = self.served.begin()
            one.call(("A12", "free"))
            # asked again it says the same, and so does what is shown of it
            self.assertEqual([one.commit().status for _ in range(2)], [status] * 2, wrong)
            known = one.known()
            self.assertEqual((known["state"], known.get("cause")), ("committed", None) if status == 200 else ("aborted", "lost"))

    @of_fake
    def test_a_commit_whose_answer_was_lost_is_known_by_its_key(self):
        for wrong, key, status in (({"lose_at": "commit"}, "k1", 200), ({"die_at": "commit"}, "k2", 410)):
            self.restarted(**wrong)
            one = self.served.begin()
            one.call(("A12", "free"))
            self.assertEqual([one.commit(key).status for _ in range(2)], [status] * 2, wrong)
            self.assertEqual(one.known()["state"], "committed" if status == 200 else "aborted")

    @of_fake
    def test_a_store_that_answers_nonsense_is_ended(self):
        self.restarted(nonsense_at="do")
        old = self.served.store()
        self.assertEqual(self.served.attempt(("up", "inc:1"), key="nonsense").status, 200)
        self.assertNotEqual(self.served.store(), old)
        self.assertEqual(self.served.state("up"), 1)

    @of_fake
    def test_objects_whose_answer_was_lost_are_there(self):
        self.restarted(die_at="extend")
        self.assertIn(self.served.put("/v1/objects/B1", {"type": "ctr2", "recovery": "undo"}).status, (201, 503))
        self.assertIn(self.served.put("/v1/objects/B1", {"type": "ctr2", "recovery": "undo"}).status, (200, 201))

    def test_a_program_that_isnt_there_is_told(self):
        for program in ("/none/colock", "/bin/true"):
            command = [*self.served.process.args]
            command[command.index("--program") + 1] = program
            command[command.index("--data") + 1] = os.path.join(self.served.folder, "other")
            told = subprocess.run(command, capture_output=True, text=True, timeout=60, check=False)
            self.assertEqual((told.returncode, "it doesn't serve" in told.stderr), (3, True), program)

    # ---- epochs

    @of_fake
    def test_an_epoch_that_is_full_ends_and_the_next_begins(self):
        self.restarted(full=30)
        for _ in range(15):
            self.assertEqual(self.served.attempt(("A12", "free")).status, 200)
        events = [line for line in self.served.get("/v1/events?from=1.0&follow=false").body.splitlines() if b'"commit"' in line]
        self.assertGreaterEqual(len(events), 15)
        self.assertGreater(self.served.get("/v1/status").json["life"], 3)

    def test_who_follows_the_events_misses_none(self):
        number = "number n\nmax 4294967295\ninitial 0\ntake any\ngive any\nend\n"
        self.assertEqual(self.served.put("/v1/types/n", number).status, 201)
        self.assertEqual(self.served.put("/v1/objects/n", {"type": "n", "recovery": "escrow"}).status, 201)
        follower = Follower(self.served, "1.0", "n")
        for amount in range(1, 41):
            self.assertEqual(self.served.attempt(("n", f"give:{amount}"), key=f"give:{amount}").status, 200)
            if amount in (7, 8, 20):
                self.assertEqual(self.served.put(f"/v1/objects/o{amount}", {"type": "n", "recovery": "escrow"}).status, 201)
            if amount in (12, 13, 30):
                self.served.kill_store()
        until(lambda: len(follower.calls) >= 40 or print(follower.first, follower.calls))
        self.assertEqual(follower.calls, [f"give:{amount}" for amount in range(1, 41)])
        self.served.end()
        self.served.start()
        for first in (1, 10, 25):
            later = Follower(self.served, follower.places[first - 1], "n")
            until(lambda: len(later.calls) == 40 - first)
            self.assertEqual(later.calls, follower.calls[first:])

    def test_events_that_arent_kept_are_gone(self):
        self.served.close()
        self.served = Served("--history", "2")
        self.served.add("ctr2", "undo", "up")
        for name in range(4):
            self.assertEqual(self.served.put(f"/v1/objects/{name}", {"type": "ctr2", "recovery": "undo"}).status, 201)
        until(lambda: self.gone("1.0"))
        until(lambda: self.gone(self.gone("1.0")) is None)

    def gone(self, first):
        """The first events that are kept, where these aren't."""
        answer = self.served.get(f"/v1/events?from={first}&follow=false")
        return answer.json["first"] if answer.status == 410 else None

    # ---- the server ends

    def test_a_server_that_is_killed_has_all_that_it_answered(self):
        for n in range(3):
            self.served.attempt(("A12", f"hold:{n + 1}"), key=f"hold:{n}")
        one = self.served.begin()
        one.call(("up", "inc:1"))
        self.served.kill()
        self.served.start()
        self.assertEqual(self.served.get("/v1/snapshot?object=A12&call=free").json["objects"][0]["reply"], "0")
        self.assertEqual((self.served.state("up"), one.commit().problem), (0, "no-transaction"))
        self.assertEqual(self.served.attempt(("A12", "hold:1"), key="hold:0").json, {"replies": ["ok"]})

    def test_a_manager_of_services_is_told(self):
        path = os.path.join(self.served.folder, "notify")
        with socket.socket(socket.AF_UNIX, socket.SOCK_DGRAM) as manager:
            manager.bind(path)
            manager.settimeout(20)
            self.served.end()
            self.served.start(NOTIFY_SOCKET=path)
            self.assertEqual(manager.recv(100).strip(), b"READY=1")
            self.served.end()
            self.assertEqual(manager.recv(100).strip(), b"STOPPING=1")

    def test_a_folder_has_one_server(self):
        told = subprocess.run(self.served.process.args, capture_output=True, text=True, timeout=60, check=False)
        self.assertEqual((told.returncode, "another server has it" in told.stderr), (3, True))

    def test_what_is_open_may_end_when_the_server_does(self):
        self.served.close()
        self.served = Served("--drain", "20")
        self.served.add("seats", "undo", "A12")
        one = self.served.begin()
        connection = self.served.connection()
        connection.connect()
        self.served.process.send_signal(signal.SIGTERM)
        until(lambda: self.served.get("/readyz").status == 503)
        self.assertEqual(self.served.post("/v1/transactions").problem, "draining")
        self.assertEqual(self.served.attempt(("A12", "free")).problem, "draining")
        self.assertEqual((one.call(("A12", "hold:1")).status, one.commit().status), (200, 200))
        self.assertEqual(self.served.process.wait(20), 0)
        self.served.start()
        self.assertEqual(self.served.get("/v1/snapshot?object=A12&call=free").json["objects"][0]["reply"], "2")

    def test_a_second_signal_ends_it_at_once(self):
        self.served.close()
        self.served = Served("--drain", "600")
        self.served.begin()
        self.served.process.send_signal(signal.SIGTERM)
        until(lambda: "ending" in self.served.log())
        self.served.process.send_signal(signal.SIGTERM)
        self.assertEqual(self.served.process.wait(20), 0)


class Follower(threading.Thread):
    """Follows the operations at an object, and begins again where its connection ends."""

    def __init__(self, one, first, name):
        super().__init__(daemon=True)
        self.one, self.first, self.name, self.calls, self.places = one, first, name, [], []
        self.start()

    def run(self):
        while True:
            connection = self.one.connection()
            try:
                connection.request("GET", f"/v1/events?from={self.first}&object={self.name}")
                stream = connection.getresponse()
                while line := stream.readline().strip():
                    event = json.loads(line)
                    life, place = event["at"].split(".")
                    self.first = f"{life}.{int(place) + 1}"
                    if event["event"] == "op":
                        self.calls.append(event["call"])
                        self.places.append(self.first)
            except (OSError, ValueError, http.client.HTTPException):
                time.sleep(0.05)
            finally:
                connection.close()


if __name__ == "__main__":
    unittest.main()
