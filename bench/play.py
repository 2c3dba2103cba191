#!/usr/bin/env python3
"""Plays on the pages that `tslx play` writes, in a headless Chromium: python3 bench/play.py [FOLDER]

The pages of some examples are loaded. By keys alone their switches are set to the truths of the tests in a run, and steps are made: the states
and updates of the page have to be those of `tsl run`, no guarantee may be broken where its formula holds, and steps are undone. Then one plays
by the mouse, against an environment, and from an address that has steps. With FOLDER a picture of each page is left there. Where no Chromium is
installed (Debian's package of that name) that is passed over.

Where `node` is installed, the page's own script says of random formulas what is left of them after a step: on random loops of letters this is
true from the next step on exactly where the formula is true from the first."""
import json
import os
import pathlib
import random
import shutil
import subprocess
import sys
import tempfile

HERE = pathlib.Path(__file__).resolve().parent
sys.dont_write_bytecode = True
sys.path.insert(0, str(HERE.parent / "scripts"))
from tslx.files import gather  # noqa: E402
from tslx.formulas import write_test, write_update  # noqa: E402
from tslx.wave import shown  # noqa: E402

EXAMPLES = HERE.parent / "examples"
RUNS = ("everyday/garage_door", "everyday/doorbell", "equality/lock")
WAIT = 60


class Browser:
    """A Chromium that is told what to do through a pipe; what it keeps goes with it."""

    def __init__(self, program, folder):
        to_read, self.to = os.pipe()
        self.back, to_write = os.pipe()
        ends = [os.fdopen(os.dup(it), "wb" if it == to_write else "rb") for it in (to_read, to_write)]

        def put():
            first, second = os.dup(ends[0].fileno()), os.dup(ends[1].fileno())
            os.dup2(first, 3)
            os.dup2(second, 4)
        words = [program, "--headless", "--no-sandbox", "--disable-gpu", "--no-first-run", f"--user-data-dir={folder}", "--remote-debugging-pipe"]
        self.process = subprocess.Popen(words, preexec_fn=put, pass_fds=(3, 4), stdin=subprocess.DEVNULL, stdout=subprocess.DEVNULL, stderr=subprocess.DEVNULL)
        for it in ends:
            it.close()
        os.close(to_read)
        os.close(to_write)
        self.count = 0
        self.left = b""
        self.session = None

    def ask(self, method, **values):
        """Asks for something, and gives what is answered."""
        self.count += 1
        message = {"id": self.count, "method": method, "params": values}
        if self.session:
            message["sessionId"] = self.session
        os.write(self.to, json.dumps(message).encode() + b"\0")
        while True:
            while b"\0" not in self.left:
                more = os.read(self.back, 65536)
                if not more:
                    raise SystemExit("chromium ended by itself")
                self.left += more
            said, _, self.left = self.left.partition(b"\0")
            answer = json.loads(said)
            if answer.get("id") == self.count:
                if "error" in answer:
                    raise SystemExit(f"chromium: {method}: {answer['error']}")
                return answer["result"]

    def load(self, address):
        """Loads a page in a new tab, and waits until it stands."""
        self.session = None
        target = self.ask("Target.createTarget", url="about:blank")["targetId"]
        self.session = self.ask("Target.attachToTarget", targetId=target, flatten=True)["sessionId"]
        self.ask("Page.enable")
        self.ask("Emulation.setDeviceMetricsOverride", width=1200, height=1500, deviceScaleFactor=1, mobile=False)
        self.ask("Page.navigate", url=address)
        self.value("new Promise((done) => { const look = () => document.title.endsWith(': play') ? done(1) : setTimeout(look, 20); look(); })")

    def value(self, expression):
        """The value of an expression on the page."""
        found = self.ask("Runtime.evaluate", expression=expression, returnByValue=True, awaitPromise=True)
        if "exceptionDetails" in found:
            raise SystemExit(f"the page: {found['exceptionDetails']}")
        return found["result"].get("value")

    def press(self, key):
        """Presses a key."""
        code = {"Enter": "Enter"}.get(key, f"Key{key.upper()}" if key.isalpha() else f"Digit{key}")
        text = {} if len(key) > 1 else {"text": key}
        self.ask("Input.dispatchKeyEvent", type="keyDown", key=key, code=code, **text)
        self.ask("Input.dispatchKeyEvent", type="keyUp", key=key, code=code)

    def click(self, what):
        """Clicks on what a selector finds."""
        x, y = self.value(f"(() => {{ const it = document.querySelector({json.dumps(what)}); it.scrollIntoView(); const at = it.getBoundingClientRect();"
                          " return [at.x + at.width / 2, at.y + at.height / 2]; })()")
        for kind in ("mousePressed", "mouseReleased"):
            self.ask("Input.dispatchMouseEvent", type=kind, x=x, y=y, button="left", clickCount=1)

    def steps(self):
        """The rows of the page's table of steps."""
        return self.value("[...document.querySelectorAll('#steps tr')].slice(1).map((row) => [...row.cells].map((cell) => cell.textContent))")

    def texts(self, what):
        """The texts of what a selector finds."""
        return self.value(f"[...document.querySelectorAll({json.dumps(what)})].map((it) => it.textContent)")

    def picture(self, file):
        """A picture of the page."""
        import base64
        file.write_bytes(base64.b64decode(self.ask("Page.captureScreenshot")["data"]))

    def end(self):
        """Ends it."""
        os.close(self.to)
        try:
            self.process.wait(WAIT)
        except subprocess.TimeoutExpired:
            self.process.kill()
            self.process.wait()
        os.close(self.back)


failures = []


def wanted(said, found, right):
    """Notes where something is not as it is wanted."""
    if found != right:
        failures.append(said)
        print(f"{said}: {found}, wanted {right}")


def page(folder, title, *files):
    """The address of a page that `tslx play` writes."""
    made = folder / f"{title}.html"
    text = subprocess.run([HERE.parent / "tslx", "play", "--title", title, *files], stdout=subprocess.PIPE, check=True).stdout
    made.write_bytes(text)
    return made.as_uri()


def play_run(browser, folder, name):
    """Plays what a run does."""
    files = [str(EXAMPLES / f"{name}{end}") for end in (".tsl", ".out", ".inputs")]
    run = shown(gather(files))
    title = name.split("/")[1]
    browser.load(page(folder, title, *files[:2]))
    tests = browser.texts("#switches code")
    truths = {write_test(test): values for test, values in run.tests}
    wanted(f"{title}: the switches", set(tests), set(truths))
    on = [False] * len(tests)
    rows = []
    for step in run.run.steps:
        now = [truths[test][step.at] for test in tests]
        for number, (was, truth) in enumerate(zip(on, now)):
            if was != truth:
                browser.press(str((number + 1) % 10))
        on = now
        browser.press("s" if step.at % 2 else "Enter")
        rows.append([str(step.at), str(step.state), ", ".join(test for test, truth in zip(tests, now) if truth), " ".join(map(write_update, step.updates))])
    wanted(f"{title}: the steps", [row[:4] for row in browser.steps()], rows)
    if run.run.formula:
        wanted(f"{title}: what is broken", [it for it in browser.texts("#guarantee td") if it.startswith("broken")], [])
    address = browser.value("location.hash")
    for _ in rows[1:]:
        browser.press("u")
    wanted(f"{title}: the first step alone", [row[:4] for row in browser.steps()], rows[:1])
    browser.press("r")
    wanted(f"{title}: the steps of a new start", browser.steps(), [])
    browser.load((folder / f"{title}.html").as_uri() + address)
    wanted(f"{title}: the steps of the address", [row[:4] for row in browser.steps()], rows)


def play_by_mouse(browser, folder):
    """Plays by the mouse, breaks an assumption, and changes the shade."""
    browser.load(page(folder, "by_mouse", str(EXAMPLES / "everyday/garage_door.tsl"), str(EXAMPLES / "everyday/garage_door.out")))
    for number in (0, 1):
        browser.click(f"#switches input[data-number='{number}']")
    browser.click("#step")
    wanted("by mouse: the tests of the step", [row[2] for row in browser.steps()], ["top, bottom"])
    wanted("by mouse: what is said", browser.texts("#said div"), ["Step 0 breaks the assumption of line 8, so nothing is guaranteed from here on."])
    browser.press("d")
    wanted("by mouse: the shade", browser.value("document.documentElement.className"), "dark")
    browser.click("#undo")
    wanted("by mouse: what is said of no step", browser.texts("#said div"), [])


def play_environment(browser, folder):
    """Plays against an environment: whatever is chosen, a guarantee breaks."""
    files = [str(EXAMPLES / f"none/two_masters{end}") for end in (".tsl", ".out")]
    for chosen in ("", "1"):
        browser.load(page(folder, "environment", *files))
        browser.press("s")
        for key in chosen + "s":
            browser.press(key)
        broken = [it for it in browser.texts("#guarantee td") if it.startswith("broken")]
        wanted(f"environment: what is broken after {chosen or 'nothing'} is chosen", broken, ["broken in step 1"])
    browser.load(page(folder, "alone", files[1]))
    browser.press("s")
    wanted("environment alone: the step", browser.steps(), [["0", "0", "", "[task <- order first]", "1"]])


def truths(formula, letters, back):
    """The truths of a formula of a page at each letter of a loop, whose last letter is followed by that at `back`."""
    count = len(letters)
    after = list(range(1, count)) + [back]
    operator, parts = formula[0], formula[1:]
    if operator in ("true", "false"):
        return [operator == "true"] * count
    if operator in ("test", "update"):
        return [parts[0] in letter[operator + "s"] for letter in letters]
    some = [truths(part, letters, back) for part in parts]
    if operator == "!":
        return [not it for it in some[0]]
    if operator in ("&&", "||"):
        return [(all if operator == "&&" else any)(it) for it in zip(*some)]
    if operator == "->":
        return [not left or right for left, right in zip(*some)]
    if operator == "<->":
        return [left == right for left, right in zip(*some)]
    if operator == "X":
        return [some[0][to] for to in after]
    yes, no = [True] * count, [False] * count
    # What is asked now, what goes on, and whether it may go on for ever.
    now, on, for_ever = {"F": (some[0], yes, False), "G": (no, some[0], True), "U": (some[-1], some[0], False), "W": (some[-1], some[0], True)}.get(
        operator, (None, None, None))
    if operator == "R":
        now, on, for_ever = [left and right for left, right in zip(*some)], some[1], True
    found = [for_ever] * count
    for _ in range(count + 1):
        found = [now[at] or (on[at] and found[after[at]]) for at in range(count)]
    return found


def random_formula(chance, depth):
    """A formula of a page over two tests and two updates."""
    if depth == 0 or chance.random() < 0.15:
        return chance.choice([["true"], ["false"], ["test", 0], ["test", 1], ["update", 0], ["update", 1]])
    operator = chance.choice(["!", "X", "F", "G", "&&", "||", "->", "<->", "U", "W", "R"])
    count = 1 if operator in "!XFG" else chance.choice([2, 3]) if operator in ("&&", "||") else 2
    return [operator, *(random_formula(chance, depth - 1) for _ in range(count))]


def progress(count):
    """What the page's script leaves of random formulas."""
    script = (HERE.parent / "scripts" / "tslx" / "play.html").read_text()
    script = script[script.index("// ---- formulas"):script.index("// ---- steps")]
    chance = random.Random(1)
    cases = []
    for _ in range(count):
        letters = [{"tests": [it for it in (0, 1) if chance.random() < 0.5], "updates": [chance.choice([0, 1])]} for _ in range(chance.randrange(2, 6))]
        cases.append((random_formula(chance, 4), letters, chance.randrange(1, len(letters))))
    given = [[formula, {"tests": [it in letters[0]["tests"] for it in (0, 1)], "updates": letters[0]["updates"]}] for formula, letters, _ in cases]
    script += "process.stdout.write(JSON.stringify(JSON.parse(require('fs').readFileSync(0)).map(([formula, letter]) => progressed(formula, letter))));"
    said = subprocess.run(["node", "-e", script], input=json.dumps(given), stdout=subprocess.PIPE, universal_newlines=True, check=True).stdout
    for (formula, letters, back), left in zip(cases, json.loads(said)):
        if truths(formula, letters, back)[0] != truths(left, letters, back)[1]:
            wanted(f"what is left of {formula} after {letters[0]}", left, "something else")
    print(f"{count} formulas after a step: {len(failures)} failures")


def main():
    if shutil.which("node"):
        progress(3000)
    else:
        print("formulas passed over, since node is not installed")
    program = shutil.which("chromium") or shutil.which("chromium-browser")
    if not program:
        print("pages passed over, since chromium is not installed")
        sys.exit(1 if failures else 0)
    with tempfile.TemporaryDirectory() as name:
        folder = pathlib.Path(name)
        browser = Browser(program, folder / "kept")
        try:
            for run in RUNS:
                play_run(browser, folder, run)
                if len(sys.argv) > 1:
                    browser.picture(pathlib.Path(sys.argv[1]) / f"{run.split('/')[1]}.png")
            play_by_mouse(browser, folder)
            play_environment(browser, folder)
            if len(sys.argv) > 1:
                browser.picture(pathlib.Path(sys.argv[1]) / "environment.png")
        finally:
            browser.end()
    print(f"{len(RUNS)} runs, the mouse and two environments: {len(failures)} failures")
    sys.exit(1 if failures else 0)


main()
