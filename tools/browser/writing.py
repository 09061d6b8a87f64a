"""What a reader does on the page of hosts/browser on which programs are written, and what they see there."""
import json
import time

EDITOR = "document.querySelector('.CodeMirror').CodeMirror"
OUTPUT = "document.getElementById('output').textContent"
STATUS = "document.getElementById('status').textContent"
KIND = "document.getElementById('status').className"
NOTICE = "document.getElementById('notice')"
MARKS = f"{EDITOR}.getAllMarks().map((it) => it.find()).filter((it) => it && it.from).map((it) => [it.from.line + 1, it.from.ch + 1, it.to.ch + 1])"
MODULES = "[...document.querySelectorAll('#modules [role=tab]')]"
VIEWS = "[...document.querySelectorAll('#views [role=tab]')]"
SHOWN = "document.getElementById('shown').textContent"
LIT = "[...document.querySelectorAll('#shown .lit')].map((it) => it.textContent).join('')"
READY = f"!document.getElementById('run').disabled && {STATUS} !== ''"
HAS_ENDED = f"['well', 'wrong', 'stopped'].includes({KIND})"
KEYS = {"Enter": 13, "Tab": 9, "Escape": 27, "ArrowRight": 39, "ArrowLeft": 37, "Home": 36, "End": 35, "Backspace": 8, "a": 65, "f": 70, "z": 90, "/": 191}
CODES = {"a": "KeyA", "f": "KeyF", "z": "KeyZ", "/": "Slash"}
CONTROL, SHIFT = 2, 8
INPUT = "document.getElementById('input')"
LOAD = 60


class Page:
    """The page in a browser."""

    def __init__(self, browser, address, check):
        self.browser, self.address, self.check = browser, f"{address}/browser/index.html", check

    def open(self, fragment=""):
        """Opens the page anew, with what the browser keeps."""
        self.browser.go("about:blank")
        self.browser.go(f"{self.address}{fragment}")
        return self.browser.until(READY, LOAD)

    def forget(self):
        """Opens the page as one who was never here."""
        self.browser.go("about:blank")
        self.browser.go(self.address)
        self.browser.value("localStorage.clear()")
        self.browser.value("addEventListener('pagehide', (event) => { localStorage.clear() })")
        return self.open()

    def key(self, key, modifiers=0):
        code = CODES.get(key, key)
        said = {"key": key, "code": code, "windowsVirtualKeyCode": KEYS[key], "modifiers": modifiers}
        if key == "Enter" and not modifiers:
            said["text"] = "\r"
        self.browser.call("Input.dispatchKeyEvent", type="keyDown" if "text" in said else "rawKeyDown", **said)
        self.browser.call("Input.dispatchKeyEvent", type="keyUp", **said)

    def write(self, text):
        """Takes all of the module away, and types a text."""
        self.browser.value(f"{EDITOR}.focus()")
        self.key("a", CONTROL)
        self.browser.call("Input.insertText", text=text)

    def type(self, text):
        """Presses the keys of a text, one after another."""
        for character in text:
            if character == "\n":
                self.key("Enter")
            else:
                self.browser.call("Input.dispatchKeyEvent", type="char", text=character)

    def put(self, text):
        """The text of the module, at once."""
        self.browser.value(f"{EDITOR}.setValue({json.dumps(text)})")

    def write_input(self, text):
        """Writes into the field of the input, in place of what stands there."""
        self.browser.value(f"{INPUT}.focus(); {INPUT}.select()")
        if text:
            self.browser.call("Input.insertText", text=text)
        else:
            self.key("Backspace")

    def text(self):
        return self.browser.value(f"{EDITOR}.getValue()")

    def press(self, id):
        self.browser.value(f"document.getElementById('{id}').scrollIntoView()")
        self.browser.click(id)

    def view(self, name):
        self.browser.value(f"document.querySelector('#views [data-name={name}]').click()")

    def run(self, by="keys"):
        """Runs the program, and waits for the end."""
        self.browser.value(f"{KIND} = ''")
        if by == "keys":
            self.browser.value(f"{EDITOR}.focus()")
            self.key("Enter", CONTROL)
        else:
            self.press("run")
        self.browser.until(HAS_ENDED)
        return self.browser.value(f"[{OUTPUT}, {STATUS}, {KIND}]")

    def expect_run(self, row, output, status, kind, by="keys"):
        """A row: what is printed (None: free), a part of the status, and its kind."""
        came = self.run(by)
        self.check(f"page, {row}", (output is None or came[0] == output) and status in came[1] and came[2] == kind, [str(it)[-300:] for it in came])

    def expect(self, row, expression, wanted=True, patience=20):
        """A row: a value of the page, which may take a while."""
        deadline = time.monotonic() + patience
        while (came := self.browser.value(expression)) != wanted and time.monotonic() < deadline:
            time.sleep(0.05)
        self.check(f"page, {row}", came == wanted, came)

    def names(self):
        return self.browser.value(f"{MODULES}.map((it) => it.textContent)")
