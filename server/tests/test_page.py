"""The page, in Chromium: what it shows, by keyboard, in light and dark, in three sizes.

PICTURES names a folder for screenshots. Where there is no chromedriver the tests are left out.
"""
import base64
import json
import os
import shutil
import subprocess
import unittest
import urllib.error
import urllib.request

from served import InBackground, Served, until

DRIVER = shutil.which("chromedriver")
PICTURES = os.environ.get("PICTURES")
ELEMENT = "element-6066-11e4-a52e-4f735466cecf"
SIZES = {"phone": (390, 844), "tablet": (820, 1180), "desk": (1440, 900)}


def started():
    """A driver, and its port. It takes one that is free for IPv4, and ends where the same one isn't free for IPv6."""
    for _ in range(10):
        driver = subprocess.Popen([DRIVER, "--port=0"], stdout=subprocess.PIPE, text=True)
        line = next((line for line in driver.stdout if "was started successfully on port" in line), None)
        if line:
            return driver, line.rstrip().rstrip(".").split()[-1]
        driver.wait()
        driver.stdout.close()
    raise AssertionError("chromedriver doesn't start")


class Browser:
    """A browser, by the protocol of WebDriver."""

    def __init__(self):
        self.driver, port = started()
        self.base = f"http://127.0.0.1:{port}"
        options = {"args": ["--headless=new", "--no-sandbox", "--disable-gpu", "--disable-dev-shm-usage"]}
        wanted = {"capabilities": {"alwaysMatch": {"goog:chromeOptions": options, "goog:loggingPrefs": {"browser": "ALL"}}}}
        self.session = self.ask("POST", "/session", wanted)["sessionId"]

    def ask(self, method, path, body=None):
        data = json.dumps(body if body is not None else {}).encode() if method == "POST" else None
        request = urllib.request.Request(self.base + path, data, {"Content-Type": "application/json"}, method=method)
        try:
            with urllib.request.urlopen(request, timeout=60) as answer:
                return json.load(answer)["value"]
        except urllib.error.HTTPError as error:
            raise AssertionError(error.read().decode()) from error

    def do(self, method, path, body=None):
        return self.ask(method, f"/session/{self.session}{path}", body)

    def run(self, script, *words):
        return self.do("POST", "/execute/sync", {"script": script, "args": list(words)})

    def go(self, url):
        self.do("POST", "/url", {"url": url})

    def text(self, selector):
        return self.run("return document.querySelector(arguments[0])?.textContent ?? null", selector)

    def keys(self, text):
        """Keys are pressed, wherever the focus is."""
        strokes = [{"type": kind, "value": key} for key in text for kind in ("keyDown", "keyUp")]
        self.do("POST", "/actions", {"actions": [{"type": "key", "id": "keyboard", "actions": strokes}]})

    def click(self, selector):
        found = self.do("POST", "/element", {"using": "css selector", "value": selector})
        self.do("POST", f"/element/{found[ELEMENT]}/click")

    def size(self, width, height):
        self.command("Emulation.setDeviceMetricsOverride", width=width, height=height, deviceScaleFactor=1, mobile=False)

    def colors(self, scheme):
        self.command("Emulation.setEmulatedMedia", features=[{"name": "prefers-color-scheme", "value": scheme}])

    def command(self, name, **parameters):
        return self.do("POST", "/goog/cdp/execute", {"cmd": name, "params": parameters})

    def picture(self, name):
        if PICTURES:
            with open(os.path.join(PICTURES, name + ".png"), "wb") as file:
                file.write(base64.b64decode(self.do("GET", "/screenshot")))

    def complaints(self):
        return [entry["message"] for entry in self.do("POST", "/se/log", {"type": "browser"}) if entry["level"] == "SEVERE" and "favicon" not in entry["message"]]

    def close(self):
        self.do("DELETE", "")
        self.driver.terminate()
        self.driver.wait()
        self.driver.stdout.close()


@unittest.skipUnless(DRIVER, "there is no chromedriver")
class Page(unittest.TestCase):
    @classmethod
    def setUpClass(cls):
        cls.served = Served()
        cls.served.add("seats", "undo", "hall/A", "hall/B", "hall/C")
        cls.served.add("ctr2", "undo", "sold")
        cls.browser = Browser()

    @classmethod
    def tearDownClass(cls):
        cls.browser.close()
        cls.served.close()

    def setUp(self):
        self.one, self.other = self.served.begin(), self.served.begin()
        self.one.call(("hall/A", "hold:1"))
        self.other.call(("hall/B", "hold:2"))
        self.waiting = InBackground(lambda: self.other.call(("hall/A", "hold:1"), wait=30))
        until(lambda: self.other.known()["waits_for"] == self.one.name)
        self.served.attempt(("sold", "inc:1"))
        self.browser.size(1_440, 900)
        self.browser.go(f"http://127.0.0.1:{self.served.port}/")
        until(lambda: self.one.name in (self.browser.text("#open-rows") or ""))

    def tearDown(self):
        self.one.abort()
        self.waiting.result()
        self.other.abort()
        self.assertEqual(self.browser.complaints(), [])

    def rows(self, selector):
        return self.browser.run("return [...document.querySelectorAll(arguments[0])].map(row => [...row.cells].map(cell => cell.textContent))", selector)

    def test_it_shows_who_holds_what_and_who_waits_for_whom(self):
        rows = {row[0]: row for row in self.rows("#open-rows tr")}
        self.assertEqual((rows[self.one.name][4], rows[self.one.name][5]), ("hall/A hold:1 ok", "–"))
        self.assertEqual((rows[self.other.name][4], rows[self.other.name][5]), ("hall/B hold:2 ok", self.one.name))
        hot = until(lambda: [row for row in self.rows("#hot-rows tr") if row[0] == "hall/A"])
        self.assertEqual(hot[0][2:], [self.one.name, f"{self.other.name} for {self.one.name}"])
        until(lambda: int(self.browser.text("#total")) >= 1)
        self.assertRegex(self.browser.text("#p50"), r"ms$")
        self.assertTrue(until(lambda: self.browser.run("return document.getElementById('bars').getAttribute('d')")))

    def test_an_open_transaction_is_aborted_by_keyboard(self):
        self.browser.keys("o")
        self.assertEqual(self.browser.run("return document.activeElement.id"), "open")
        self.browser.keys("\ue004")
        label = self.browser.run("return document.activeElement.getAttribute('aria-label')")
        self.assertEqual(label, f"Abort {self.one.name}")
        self.browser.keys("\ue007")
        until(lambda: self.one.known()["state"] == "aborted")
        until(lambda: self.browser.text("#told") == f"{self.one.name} is aborted.")
        self.assertEqual(self.waiting.result().json, {"replies": ["ok"]})

    def test_one_that_is_prepared_says_so_and_is_decided(self):
        held = self.served.begin()
        held.call(("hall/C", "hold:1"))
        self.assertEqual(held.prepare("guest:7", 3_600).status, 200)
        row = until(lambda: {row[0]: row for row in self.rows("#open-rows tr")}.get(held.name))
        self.assertRegex(row[5], r"^a decision on guest:7, (59|60) min more$")
        self.browser.click(f"[aria-label='Abort {held.name}']")
        until(lambda: self.browser.text("#told") == f"{held.name} is aborted.")
        self.assertEqual(self.served.get("/v1/decisions/guest:7").json["outcome"], "aborted")

    def test_an_object_is_found_with_its_last_events(self):
        self.browser.keys("/")
        self.browser.keys("sold\ue007")
        text = until(lambda: self.browser.text("#found p"))
        self.assertRegex(text, "^sold: ctr2, undo, committed state [0-9]+$")
        self.assertIn("inc:1 ok", self.browser.text("#found table"))
        self.browser.run("document.activeElement.value = ''")
        self.browser.keys("none\ue007")
        until(lambda: "There is no such object" in self.browser.text("#found"))
        complaints = self.browser.complaints()
        self.assertTrue(all("404" in each for each in complaints), complaints)

    def test_a_type_has_the_grid_of_its_conflicts(self):
        self.browser.run("const s = document.getElementById('type'); s.value = 'ctr2'; s.dispatchEvent(new Event('change'))")
        grid = until(lambda: [row for row in self.rows("#grid tr") if row[:1] == ["0 inc:1 ok"]])
        self.assertEqual(grid[0], ["0 inc:1 ok", "·", "x"])
        self.browser.run("const s = document.getElementById('kind'); s.value = 'intentions'; s.dispatchEvent(new Event('change'))")
        until(lambda: [row for row in self.rows("#grid tr") if row == ["0 inc:1 ok", "x", "·"]])

    def test_nothing_is_wider_than_the_window(self):
        for scheme in ("light", "dark"):
            self.browser.colors(scheme)
            for name, (width, height) in SIZES.items():
                self.browser.size(width, height)
                until(lambda: self.browser.run("return innerWidth") == width)
                self.browser.picture(f"{name}-{scheme}")
                self.assertLessEqual(self.browser.run("return document.documentElement.scrollWidth"), width, name)
            ground = self.browser.run("return getComputedStyle(document.body).backgroundColor")
            self.assertEqual(sum(map(int, ground[4:-1].split(","))) < 380, scheme == "dark", ground)

    def test_a_token_is_asked_for_where_it_is_needed_alone(self):
        self.assertFalse(self.browser.run("return document.getElementById('access').checkVisibility()"))

    def test_nothing_comes_from_elsewhere(self):
        policy = self.served.get("/").headers["content-security-policy"]
        self.assertTrue(policy.startswith("default-src 'none'; script-src 'self';") and "unsafe" not in policy)
        names = self.browser.run("return performance.getEntriesByType('resource').map(entry => new URL(entry.name).host)")
        self.assertEqual(set(names), {f"127.0.0.1:{self.served.port}"})


if __name__ == "__main__":
    unittest.main()
