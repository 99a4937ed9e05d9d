"""Browsers that are worked as by a reader's own hands: what is pressed and touched goes through the browser, and the page
cannot tell it from a person's. Chromium is driven by its DevTools protocol, Firefox by WebDriver BiDi."""

import base64
import json
import os
import subprocess
import tempfile
import time
import urllib.request
from pathlib import Path

from page.driven.messages import HOST, Messages
from page.walking import PAGE

SECONDS = 60  # for an answer, and for the page
MOVES = 8  # of a finger that drags
PAUSE = 20  # milliseconds between them
# What WebDriver and Chromium know keys by that have no character.
KEYS = {"Tab": ("\ue004", 9), "Enter": ("\ue007", 13), "Escape": ("\ue00c", 27), " ": (" ", 32), "End": ("\ue010", 35),
        "Home": ("\ue011", 36), "ArrowLeft": ("\ue012", 37), "ArrowUp": ("\ue013", 38), "ArrowRight": ("\ue014", 39),
        "ArrowDown": ("\ue015", 40), "Shift": ("\ue008", 16), "Control": ("\ue009", 17)}
MODIFIERS = {"Control": 2, "Shift": 8}
HELP = """
const all = (selector) => [...document.querySelectorAll(selector)];
const at = (id) => document.getElementById(id);
const box = (it) => { const { x, y, width, height } = it.getBoundingClientRect(); return { x, y, width, height }; };
const pile = (side, key) => all(`#${side} .pile`).find((it) => it.dataset.key === key);
const cards = (side, key) => all(`#${side} .card`).filter((it) => it.dataset.key === key)
  .sort((one, other) => one.dataset.row - other.dataset.row);
const board = (side) => all(`#${side} .pile`).map(({ dataset: { key } }) =>
  `${key}: ${cards(side, key).map((it) => it.dataset.card).join(' ')}`).join('\\n');
"""


def until(test):
    """Waits until this gives something, and gives that."""
    end = time.monotonic() + SECONDS
    while time.monotonic() < end:
        if found := test():
            return found
        time.sleep(.05)
    raise TimeoutError("the browser does not do what is waited for")


class Browser:
    """One running browser, in a folder of its own. Nothing moves there, so that all is soon at rest."""

    def __init__(self, program, words, forced=False, fingers=False):
        self.room = tempfile.TemporaryDirectory(prefix="fcanon-page-", ignore_cleanup_errors=True)
        self.forced, self.fingers = forced, fingers
        self.prepare(Path(self.room.name))
        self.running = subprocess.Popen([program, "--headless", *words(self.room.name), "about:blank"], stdout=subprocess.DEVNULL,
                                        stderr=subprocess.DEVNULL, env={**os.environ, "HOME": self.room.name})
        self.is_open = False

    def __enter__(self):
        self.messages = until(self.connect)
        self.begin()
        return self

    def __exit__(self, *_):
        self.messages.close()
        self.running.terminate()
        self.running.wait(SECONDS)
        self.room.cleanup()

    def prepare(self, room):
        """Writes what the browser reads as it starts."""

    def ask(self, method, **params):
        return self.messages.ask(method, params)

    def open(self, wide, high, place=""):
        """Opens the page as for one who was never here."""
        if self.is_open:
            self.value("[at('forget'), at('forget')].forEach((it) => it.click())")
            until(lambda: self.value("at('kept').textContent === 'Nothing is kept.'"))
        self.renew()
        self.resize(wide, high)
        self.go(PAGE.as_uri() + place)
        until(lambda: self.value("document.body?.dataset.is === 'ready'"))
        self.is_open = True

    def value(self, script):
        """The value of an expression, with HELP before it."""
        return json.loads(self.evaluate(f"(() => {{ {HELP} return JSON.stringify(({script}) ?? null); }})()"))

    def type(self, text):
        for key in text:
            self.press(key)


class Chromium(Browser):
    pans = True  # a finger moves the page

    def __init__(self, program, **kinds):
        words = ["--no-sandbox", "--disable-gpu", "--remote-debugging-port=0", "--force-prefers-reduced-motion",
                 "--touch-events=enabled"]
        super().__init__(program, lambda room: [*words, f"--user-data-dir={room}"], **kinds)

    def connect(self):
        """The connection to the first page, once it is there."""
        try:
            port = int((Path(self.room.name) / "DevToolsActivePort").read_text().split()[0])
            with urllib.request.urlopen(f"http://{HOST}:{port}/json") as answer:
                page = next(it for it in json.load(answer) if it["type"] == "page")
            return Messages(port, page["webSocketDebuggerUrl"].split(str(port))[1], SECONDS)
        except (OSError, IndexError, StopIteration):
            return None

    def begin(self):
        if self.forced:
            self.ask("Emulation.setEmulatedMedia", features=[{"name": "forced-colors", "value": "active"}])
        self.ask("Emulation.setTouchEmulationEnabled", enabled=self.fingers)

    def renew(self):
        """Leaves the page."""
        self.go("about:blank")

    def resize(self, wide, high):
        self.ask("Emulation.setDeviceMetricsOverride", width=wide, height=high, deviceScaleFactor=1, mobile=self.fingers)

    def go(self, address):
        self.ask("Page.navigate", url=address)

    def evaluate(self, script):
        answer = self.ask("Runtime.evaluate", expression=script, returnByValue=True, userGesture=True)
        if "exceptionDetails" in answer:
            raise RuntimeError(json.dumps(answer["exceptionDetails"]))
        return answer["result"]["value"]

    def press(self, *keys):
        """Presses keys together: the last one while the others are down."""
        modifiers = sum(MODIFIERS[key] for key in keys[:-1])
        key = keys[-1]
        text = {"Enter": "\r"}.get(key, key if len(key) == 1 and not modifiers & MODIFIERS["Control"] else "")
        code = KEYS[key][1] if key in KEYS else ord(key.upper())
        asked = {"key": key, "modifiers": modifiers, "windowsVirtualKeyCode": code}
        self.ask("Input.dispatchKeyEvent", type="keyDown", text=text, **asked)
        self.ask("Input.dispatchKeyEvent", type="keyUp", **asked)

    def touch(self, *places):
        """A finger comes down at the first place, goes through the others, and is lifted at the last one."""
        for at, (x, y) in enumerate(places):
            self.ask("Input.dispatchTouchEvent", type="touchMove" if at else "touchStart", touchPoints=[{"x": x, "y": y}])
            time.sleep(PAUSE / 1000)
        self.ask("Input.dispatchTouchEvent", type="touchEnd", touchPoints=[])

    def paper(self):
        """The page as a PDF, with backgrounds only where the page asks for them."""
        return base64.b64decode(self.ask("Page.printToPDF", printBackground=False)["data"])

    def picture(self):
        return base64.b64decode(self.ask("Page.captureScreenshot", format="png")["data"])


class Firefox(Browser):
    pans = False  # the touches of WebDriver BiDi move no page in Firefox

    def __init__(self, program, **kinds):
        super().__init__(program, lambda room: ["--no-remote", "--profile", room, "--remote-debugging-port", "0"], **kinds)

    def prepare(self, room):
        chosen = {"ui.prefersReducedMotion": 1}
        if self.forced:
            chosen |= {"browser.display.document_color_use": 2}
        if self.fingers:
            chosen |= {f"ui.{which}PointerCapabilities": 1 for which in ("primary", "all")} | {"dom.w3c_touch_events.enabled": 1}
        (room / "user.js").write_text("".join(f'user_pref("{name}", {json.dumps(value)});\n' for name, value in chosen.items()))

    def connect(self):
        try:
            port = json.loads((Path(self.room.name) / "WebDriverBiDiServer.json").read_text())["ws_port"]
            return Messages(port, "/session", SECONDS)
        except (OSError, ValueError):
            return None

    def begin(self):
        self.ask("session.new", capabilities={})
        self.context = self.ask("browsingContext.getTree")["contexts"][0]["context"]

    def renew(self):
        """Goes on in another tab, which has the focus; in the first one, or after many keys, a field of the browser has it."""
        before = self.context
        self.context = self.ask("browsingContext.create", type="tab")["context"]
        self.ask("browsingContext.close", context=before)

    def resize(self, wide, high):
        self.ask("browsingContext.setViewport", context=self.context, viewport={"width": wide, "height": high})

    def go(self, address):
        self.ask("browsingContext.navigate", context=self.context, url=address, wait="complete")

    def evaluate(self, script):
        answer = self.ask("script.evaluate", expression=script, target={"context": self.context}, awaitPromise=False,
                          userActivation=True)
        if answer["type"] != "success":
            raise RuntimeError(json.dumps(answer["exceptionDetails"]["text"]))
        return answer["result"]["value"]

    def act(self, kind, actions, **more):
        source = {"type": kind, "id": kind, "actions": actions, **more}
        self.ask("input.performActions", context=self.context, actions=[source])

    def press(self, *keys):
        values = [KEYS[key][0] if key in KEYS else key for key in keys]
        downs = [{"type": "keyDown", "value": value} for value in values]
        self.act("key", [*downs, *({"type": "keyUp", "value": value} for value in reversed(values))])

    def touch(self, *places):
        moves = [{"type": "pointerMove", "x": round(x), "y": round(y), "duration": PAUSE if at else 0}
                 for at, (x, y) in enumerate(places)]
        actions = [moves[0], {"type": "pointerDown", "button": 0}, *moves[1:], {"type": "pointerUp", "button": 0}]
        self.act("pointer", actions, parameters={"pointerType": "touch"})

    def paper(self):
        return base64.b64decode(self.ask("browsingContext.print", context=self.context, background=False)["data"])

    def picture(self):
        return base64.b64decode(self.ask("browsingContext.captureScreenshot", context=self.context)["data"])


def driven(program, **kinds):
    """A browser by its program's name."""
    return (Firefox if program.startswith("firefox") else Chromium)(program, **kinds)
