"""docs/server.md has each route, option, problem and metric, and none that isn't there; and what it tells to do works."""
import json
import os
import re
import subprocess
import unittest

from served import HERE, SERVER, Served

TOP = os.path.join(HERE, "..", "..")


class Pages(unittest.TestCase):
    @classmethod
    def setUpClass(cls):
        cls.served = Served()
        with open(os.path.join(TOP, "docs", "server.md"), encoding="utf-8") as file:
            cls.page = file.read()

    @classmethod
    def tearDownClass(cls):
        cls.served.close()

    def section(self, name):
        return re.search(rf"^##+ {name}$(.*?)(?=^##+ |\Z)", self.page, re.M | re.S)[1]

    def test_each_option_is_there(self):
        told = subprocess.run([SERVER, "--help"], capture_output=True, text=True, check=True).stdout
        wanted = set(re.findall(r"--[a-z][a-z-]+", told)) - {"--help", "--version"}
        rows = [row for row in self.section("Options").splitlines() if row.startswith("| `--")]
        self.assertEqual({option for row in rows for option in re.findall(r"--[a-z][a-z-]+", row.split(" | ")[0])}, wanted)

    def test_each_problem_is_there(self):
        with open(os.path.join(HERE, "..", "colockd", "src", "problem.rs"), encoding="utf-8") as file:
            text = file.read()
        wanted = set(re.findall(r'Words\(\s*ProblemKind::\w+,\s*"([a-z-]+)"', text))
        rows = [row for row in self.section("Errors").splitlines() if re.match(r"\| \d", row)]
        self.assertEqual(set(re.findall(r"`([a-z]+(?:-[a-z]+)*)`", " ".join(rows))) - {"line", "column"}, wanted)
        for name in wanted:
            answer = self.served.get(f"/problems/{name}")
            status = answer.body.decode().split("status ")[1][:3]
            row = next(row for row in rows if f"`{name}`" in row)
            self.assertIn(status, row.split("|")[1], name)

    def test_each_metric_is_there(self):
        self.served.get("/healthz")
        told = set(re.findall(r"^# TYPE colockd_(\w+)", self.served.get("/metrics").body.decode(), re.M)) | {"aborts_total"}
        section = self.section("Metrics")
        rows = [row.split(" | ")[0] for row in section.splitlines() if row.startswith("| `")]
        self.assertEqual({name for row in rows for name in re.findall(r"`([a-z_]+)", row)}, told)

    def test_each_route_is_there(self):
        described = self.served.get("/openapi.json").json["paths"]
        wanted = {(method.upper(), re.sub(r"\{\w+\}", "*", path)) for path, methods in described.items() for method in methods}
        rows = [row.split(" | ")[0] for row in self.section("Routes").splitlines() if row.startswith("| `")]
        told = set()
        for row in rows:
            method = "GET"
            for words in re.findall(r"`([^`]+)`", row):
                method, path = words.split(" ") if " " in words else (method, words)
                told.add((method, re.sub(r"NAME|ID|KEY", "*", path.split("?")[0])))
        self.assertEqual(told - {("GET", "/page.js"), ("GET", "/page.css")}, wanted)

    def test_the_lines_of_curl_book_a_seat(self):
        with open(os.path.join(TOP, "README.md"), encoding="utf-8") as file:
            readme = file.read()
        for text in (readme, self.section("Begin")):
            lines = [line.strip() for line in text.splitlines() if line.startswith("    curl")]
            self.assertEqual(len(lines), 3)
            for line in lines:
                line = line.replace("localhost:7420", f"localhost:{self.served.port}").replace("curl ", "curl -sf ", 1)
                told = subprocess.run(["sh", "-c", line], cwd=TOP, capture_output=True, text=True, check=True).stdout
            self.assertEqual(json.loads(told), {"replies": ["ok", "ok"]})
        self.assertEqual(self.served.get("/v1/snapshot?object=hall&call=free").json["objects"][0]["reply"], "2")

    def test_the_line_that_starts_it_is_one_of_cargo(self):
        for page in ("README.md", os.path.join("docs", "server.md")):
            with open(os.path.join(TOP, page), encoding="utf-8") as file:
                words = re.search(r"cargo run --release -p (\w+) -- (--data shop)$", file.read(), re.M)
            self.assertEqual(words[1], "colockd", page)
        told = subprocess.run(["cargo", "metadata", "--offline", "--no-deps", "--format-version", "1"], cwd=TOP, capture_output=True, check=True).stdout
        self.assertIn("colockd", [target["name"] for each in json.loads(told)["packages"] for target in each["targets"] if target["kind"] == ["bin"]])

    def test_the_bodies_of_the_page_are_read(self):
        bodies = re.findall(r"^    (\{\"(?:calls|type|objects|key|outcome)\".*\})$", self.page, re.M)
        transaction = self.served.begin()
        routes = {"calls": ("POST", "/v1/attempts"), "objects": ("POST", "/v1/objects"), "type": ("PUT", "/v1/objects/x"),
                  "key": ("POST", transaction.path + "/prepare"), "outcome": ("PUT", "/v1/decisions/guest:7")}
        self.assertEqual(len(bodies), 5)
        for body in bodies:
            answer = self.served.ask(*routes[next(iter(json.loads(body)))], body)
            self.assertIn(answer.status, (200, 201, 404), body)

    def test_a_token_is_made_as_the_page_says(self):
        lines = re.findall(r"^    (TOKEN=.*)$", self.page, re.M)
        token, digits = subprocess.run(["sh", "-c", lines[0]], capture_output=True, text=True, check=True).stdout.split()[:2]
        file = os.path.join(self.served.folder, "tokens")
        with open(file, "w", encoding="ascii") as opened:
            opened.write(f"ops read,admin {digits}\n")
        one = Served("--tokens", file)
        try:
            self.assertEqual((one.get("/v1/types", Authorization=f"Bearer {token}").status, one.get("/v1/types").status), (200, 401))
        finally:
            one.close()


if __name__ == "__main__":
    unittest.main()
