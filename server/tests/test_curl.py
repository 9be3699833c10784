"""Each line of the table of routes, by curl."""
import json
import os
import subprocess
import unittest

from served import EXAMPLES, Served


class Curl(unittest.TestCase):
    @classmethod
    def setUpClass(cls):
        cls.served = Served()

    @classmethod
    def tearDownClass(cls):
        cls.served.close()

    def curl(self, path, *words):
        """The status and the body, which is read where it is JSON."""
        told = subprocess.run(["curl", "-s", "-w", "\n%{http_code}", *words, f"http://127.0.0.1:{self.served.port}{path}"],
                              capture_output=True, text=True, check=True, cwd=EXAMPLES).stdout
        body, status = told.rsplit("\n", 1)
        return int(status), json.loads(body) if body.startswith(("{", "[")) and body.count("\n{") == 0 else body

    def post(self, path, body="", *words):
        return self.curl(path, "-d", json.dumps(body) if body != "" else "", *words)

    def put(self, path, body):
        return self.curl(path, "-X", "PUT", "-d", json.dumps(body))

    def test_each_line_of_the_table(self):
        self.types_and_objects()
        self.attempts()
        self.transactions()
        self.decisions()
        self.reads()

    def types_and_objects(self):
        self.assertEqual([self.curl("/v1/types/seats", "-T", "seats.type")[0] for _ in range(2)], [201, 200])
        self.assertEqual(self.curl("/v1/types/seats", "-T", "ctr2.type")[0], 409)
        with open(os.path.join(EXAMPLES, "ctr2.type"), encoding="ascii") as file:
            broken = file.read().removesuffix("end\n")
        status, told = self.curl("/v1/types/broken", "-X", "PUT", "--data-binary", broken)
        self.assertEqual((status, told["fault"], told["line"]), (422, "Missing", 14))
        wanted = {"type": "seats", "recovery": "undo"}
        self.assertEqual([self.put("/v1/objects/hall/A", wanted)[0] for _ in range(2)], [201, 200])
        self.assertEqual(self.post("/v1/objects", {"objects": [{"name": f"hall/{name}", **wanted} for name in "BC"]})[0], 201)
        self.assertEqual(self.curl("/v1/objects/hall/B")[1]["type"], "seats")
        page = self.curl("/v1/objects?prefix=hall/&limit=2")[1]
        self.assertEqual(([one["name"] for one in page["objects"]], page["next"]), (["hall/A", "hall/B"], "hall/B"))

    def attempts(self):
        book = {"calls": [{"object": "hall/A", "call": "hold:1"}, {"object": "hall/A", "call": "book:1"}]}
        for _ in range(2):
            self.assertEqual(self.post("/v1/attempts", book, "-H", "Idempotency-Key: order:1"), (200, {"replies": ["ok", "ok"]}))
        self.assertEqual(self.post("/v1/attempts", [book, {"calls": []}])[0], 200)

    def transactions(self):
        status, begun = self.post("/v1/transactions", {"idle": 60})
        path = f"/v1/transactions/{begun['id']}"
        self.assertEqual(status, 201)
        self.assertEqual(self.post(path + "/calls", {"calls": [{"object": "hall/B", "call": "hold:1"}, {"object": "hall/B", "call": "hold:2"}]}), (200, {"replies": ["ok", "ok"]}))
        status, told = self.post("/v1/attempts", {"calls": [{"object": "hall/B", "call": "hold:1"}]})
        self.assertEqual((status, told["type"], told["blocker"], told["place"]), (409, "/problems/busy", begun["id"], 0))
        self.assertEqual(self.post(path + "/rollback", {"count": 1})[0], 200)
        self.assertEqual(self.curl(path)[1]["operations"], 1)
        self.assertEqual([self.post(path + "/commit")[0] for _ in range(2)], [200, 200])
        self.assertEqual(self.post(path + "/abort")[0], 410)
        other = self.post("/v1/transactions")[1]["id"]
        self.assertEqual(self.post(f"/v1/transactions/{other}/abort"), (200, {"id": other, "state": "aborted"}))
        self.assertEqual(self.curl("/v1/transactions"), (200, {"transactions": []}))

    def decisions(self):
        held = self.post("/v1/transactions")[1]["id"]
        self.assertEqual(self.post(f"/v1/transactions/{held}/calls", {"calls": [{"object": "hall/C", "call": "hold:3"}]})[0], 200)
        status, told = self.post(f"/v1/transactions/{held}/prepare", {"key": "guest:7", "for": 900})
        self.assertEqual((status, told["state"], told["key"]), (200, "prepared", "guest:7"))
        self.assertEqual([one["id"] for one in self.curl("/v1/prepared")[1]["prepared"]], [held])
        self.assertEqual(self.curl("/v1/decisions/guest:7")[1]["outcome"], "prepared")
        self.assertEqual(self.put("/v1/decisions/guest:7", {"outcome": "commit"}), (200, {"key": "guest:7", "outcome": "committed"}))
        self.assertEqual(self.put("/v1/decisions/guest:7", {"outcome": "abort"})[0], 409)

    def reads(self):
        told = self.curl("/v1/snapshot?prefix=hall/&call=free")[1]["objects"]
        self.assertEqual([one["reply"] for one in told], ["2", "2", "2"])
        lines = self.curl("/v1/events?last=2&follow=false")[1].strip().splitlines()
        self.assertEqual([json.loads(line)["event"] for line in lines], ["op", "commit"])
        sent = self.curl("/v1/events?last=2&follow=false", "-H", "Accept: text/event-stream")[1]
        self.assertEqual(sent.count("data: "), 2)
        for path, begins in (("/healthz", "ok"), ("/readyz", "ready"), ("/metrics", "# HELP"), ("/", "<!doctype html>")):
            status, body = self.curl(path)
            self.assertEqual((status, body.startswith(begins)), (200, True), path)
        self.assertEqual(self.curl("/openapi.json")[1]["openapi"][:2], "3.")
        self.assertEqual(self.curl("/none")[0], 404)


if __name__ == "__main__":
    unittest.main()
