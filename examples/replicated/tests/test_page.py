"""The page in a browser without a window: what it draws of a known state, and a screenshot.

SCREENSHOT=FILE keeps the screenshot.
"""

import contextlib
import html
import http.client
import json
import os
import pathlib
import re
import resource
import shutil
import subprocess
import tempfile
import unittest

import support  # noqa: F401  finds the example
import serve

BROWSER = next(filter(None, map(shutil.which, ("chromium-headless-shell", "chromium", "chromium-browser"))), None)
WORDS = ["--headless", "--no-sandbox", "--disable-gpu", "--disable-dev-shm-usage", "--no-first-run"]
WORDS += ["--hide-scrollbars", "--window-size=1100,1000", "--virtual-time-budget=8000"]
PATIENCE = 100  # seconds
# A page that has other pages in frames, and later their content as text: so one browser draws them all.
FRAMES = """<!DOCTYPE html><title>frames</title><body><script>
for (const name of NAMES) {
  const frame = document.body.appendChild(document.createElement("iframe"));
  [frame.id, frame.src] = [name, `/${name}/`];
}
setTimeout(() => {
  for (const frame of document.querySelectorAll("iframe")) {
    const text = document.body.appendChild(document.createElement("pre"));
    [text.id, text.textContent] = ["of-" + frame.id, frame.contentDocument.documentElement.outerHTML];
  }
}, 6000);
</script></body>"""
HELD = {"node": 1, "name": "w1", "by": "node", "age_seconds": 7.33}
STATE = {
    "program": "replica", "name": "r1", "floor_text": "1764418000000.0", "floor_age_seconds": 7.33,
    "horizon_age_seconds": 61.2, "rows": 20411,
    "held_back": HELD | {"why": "w1 (node 1) has appended nothing for 7 s or longer", "cure": "start it again"},
    "nodes": [
        {"node": number, "name": name, "age_seconds": age, "next": 81_200, "items_behind": behind,
         "silent_seconds": 0.2, "retired": retired}
        for number, name, age, behind, retired in [
            (0, "coordinator", 0.031, 0, False), (1, "w1", 7.33, 0, False), (2, "<b>w2</b>", 0.041, 12, False),
            (3, "", 100.0, 0, True), (4, "w4", -3600.0, 0, False)]],
    "replicas": [{"name": f"r{number}", "address": f"127.0.0.1:810{number}", "age_seconds": age, "checkpoint": 12_000}
                 for number, age in [(1, 7.5), (2, 7.4), (3, 9.9)]],
    "snapshots": [{"id": 1, "open_seconds": 2.0, "age_seconds": 8.1}, {"id": 2, "open_seconds": 2, "age_seconds": 14}],
    "sizes": {"rows": 20_411, "keys": 19_801, "key_bytes": 198_010, "value_bytes": 1_023_411},
    "checkpoints": {"age_seconds": 12.0, "bytes": 1_233_333}, "vacuum": {"seconds": 0.012},
    "log": {"items": 1_000_000, "items_per_second": 3012.2, "items_behind": 12},
    "alarms": [{"alarm": "FloorOld", "text": "the floor is 7 s old: <reason>", "cure": "start it again"}],
}  # fmt: skip
RANGES = [
    {"range": 3, "from": "", "to": "6d<b>".encode().hex(), "floor_age_seconds": 7.33, "rows": 12_000, "revision": 5,
     "live": True},
    {"range": 4, "from": "ff00", "to": "", "floor_age_seconds": 0.4, "rows": 8_411, "revision": 6, "live": False},
]  # fmt: skip
COORDINATOR = {
    "append_age_seconds": 0.02, "numbers_assigned": 5, "requests": [],
    "members": [{"address": "127.0.0.1:2379", "answers": False, "bytes": 0, "no_space": False}],
}  # fmt: skip


class Drawn(serve.Answerer):
    """Answers with the page of each state: below its name, and that of the first one at the root."""

    def __init__(self, states):
        super().__init__()
        self.pages = {"/": serve.page, "/frames": self.frames}
        self.names = list(states)
        self.state = lambda: next(iter(states.values()))
        for name, state in states.items():
            self.pages |= {f"/{name}/": serve.page, f"/{name}/state": lambda state=state: state}

    def frames(self):
        return serve.Content("text/html; charset=utf-8", FRAMES.replace("NAMES", json.dumps(self.names)).encode())


def ask_browser(url, *words):
    """Returns what the browser prints of a page."""
    most = resource.getrlimit(resource.RLIMIT_AS)[1]  # it reserves more addresses than other programs
    room = ["prlimit", f"--as={'unlimited' if most == resource.RLIM_INFINITY else most}:"]
    with tempfile.TemporaryDirectory() as profile:
        command = [*room, BROWSER, *WORDS, f"--user-data-dir={profile}", *words, url]
        ran = subprocess.run(command, stdout=subprocess.PIPE, stderr=subprocess.DEVNULL, text=True, timeout=PATIENCE)
        return ran.stdout


class Page(unittest.TestCase):
    def test_it_is_one_page(self):
        """It loads nothing else, from nowhere."""
        text = serve.PAGE.read_text()
        self.assertEqual(re.findall(r"""(?:src|href)=(\S+)""", text), ['"data:,">'])
        self.assertEqual(re.findall(r"https?://\S+", text), ['http://www.w3.org/2000/svg",'])
        self.assertEqual(re.findall(r"fetch\((\S+),", text), ['"state"'])
        self.assertNotIn("innerHTML", text)

    def test_it_is_served(self):
        connection = http.client.HTTPConnection(serve.start(Drawn({"replica": STATE})).address, timeout=60)
        with contextlib.closing(connection):
            connection.request("GET", "/")
            answer = connection.getresponse()
            self.assertEqual((answer.status, answer.getheader("Content-Type")), (200, "text/html; charset=utf-8"))
            self.assertEqual(answer.read(), serve.PAGE.read_bytes())

    def test_its_state_is_json(self):
        self.assertEqual(json.loads(json.dumps(STATE)), STATE)


def empty():
    node = STATE["nodes"][0] | {"age_seconds": 1.7e9}
    state = STATE | {"floor_text": "0.0", "floor_age_seconds": 1.7e9, "horizon_age_seconds": 1.7e9, "nodes": [node]}
    return state | {"replicas": [], "snapshots": [], "alarms": []}


def coordinator():
    state = STATE | {"program": "coordinator", "name": "coordinator", "snapshots": [], "alarms": []}
    state |= {"coordinator": COORDINATOR}
    return {name: state[name] for name in state if name not in ("sizes", "horizon_age_seconds")}


@unittest.skipUnless(BROWSER, "no chromium (apt-get install chromium-headless-shell)")
class InABrowser(unittest.TestCase):
    @classmethod
    def setUpClass(cls):
        states = {
            "replica": STATE,
            "ranged": STATE | {"ranges": RANGES},
            "coordinator": coordinator(),
            "empty": empty(),
            "failing": "no state",
        }
        cls.root = f"http://{serve.start(Drawn(states)).address}/"
        drawn = ask_browser(cls.root + "frames", "--dump-dom")
        cls.pages = {name: html.unescape(text) for name, text in re.findall(r'<pre id="of-(\w+)">([^<]*)</pre>', drawn)}

    def test_a_replica(self):
        page = self.pages["replica"]
        self.assertIn("<title>1 alarm: replica r1</title>", page)
        self.assertIn("replica r1: floor 1764418000000.0, 7.3 s old", page)
        self.assertIn("Held back: w1 (node 1) has appended nothing for 7 s or longer.", page)
        self.assertEqual(re.findall(r'data-alarm="(\w+)"', page), ["FloorOld"])
        self.assertIn(html.escape("the floor is 7 s old: <reason>"), page)
        for kind, many in ("node", 3), ("node holds", 1), ("replica", 3), ("snapshot", 2), ("floor", 1), ("horizon", 1):
            self.assertEqual(len(re.findall(f'class="{kind}"', page)), many, kind)
        self.assertIn(html.escape("<b>w2</b>"), page)
        self.assertIn("60.0 min ahead", page)
        self.assertIn("Nodes; 1 retired", page)
        self.assertIn("1.2 MB", page)

    def test_places_on_the_line(self):
        """What is older is further to the left, and what is ahead to the right of now."""
        page = self.pages["replica"]
        places = {name: float(at) for at, name in re.findall(r'cx="([\d.-]+)"[^>]*><title>([^:]+):', page)}
        names = ["w1", html.escape("<b>w2</b>"), "coordinator", "w4"]
        self.assertEqual(sorted(places, key=places.get), names)
        now = float(re.search(r'<text [^>]*x="([\d.]+)"[^>]*>now<', page)[1])
        self.assertLess(places["coordinator"], now)
        self.assertGreater(places["w4"], now)
        floor = float(re.search(r'class="floor" x1="([\d.]+)"', page)[1])
        self.assertAlmostEqual(floor, places["w1"], places=3)

    def test_the_coordinator(self):
        page = self.pages["coordinator"]
        self.assertIn("coordinator: floor 1764418000000.0", page)
        self.assertIn("no alarm", page)
        self.assertIn("5 of 1,024", page)
        self.assertRegex(page, 'class="holds"><td>127.0.0.1:2379</td><td>no</td>')
        self.assertNotIn('class="horizon"', page)

    def test_ranges(self):
        page = self.pages["ranged"]
        self.assertEqual(len(re.findall('class="range"', page)), 2)
        self.assertIn(f"<td>the first</td><td>{html.escape('6d<b>')}</td><td>7.3 s</td><td>12,000</td>", page)
        self.assertIn("<td>0xff00</td><td>no end</td><td>400 ms</td>", page)
        self.assertIn("has ended", page)
        self.assertNotIn("Ranges", self.pages["replica"][: self.pages["replica"].index("<script>")])

    def test_an_empty_store(self):
        page = self.pages["empty"]
        self.assertIn("replica r1: floor 0.0<", page)
        self.assertNotIn('class="floor"', page)
        self.assertNotIn("NaN", page[: page.index("<script>")])

    def test_a_program_that_fails(self):
        self.assertEqual(re.findall(r'data-alarm="(\w+)"', self.pages["failing"]), ["NoAnswer"])

    def test_a_screenshot(self):
        with tempfile.TemporaryDirectory() as folder:
            picture = pathlib.Path(folder, "page.png")
            ask_browser(self.root, f"--screenshot={picture}")
            content = picture.read_bytes()
            self.assertEqual(content[:8], b"\x89PNG\r\n\x1a\n")
            self.assertGreater(len(content), 20_000)
            if "SCREENSHOT" in os.environ:
                shutil.copy(picture, os.environ["SCREENSHOT"])


if __name__ == "__main__":
    unittest.main()
