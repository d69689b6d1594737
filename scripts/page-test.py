"""Drives Chromium over its debugging pipe: opens pages, tests their DOM, watches console and network, and takes their pictures."""

import base64
import json
import os
import re
import signal
import subprocess
import sys
import time

# width, height, and whether it is a phone
LAPTOP, PHONE = (1366, 900, False), (390, 844, True)


class Browser:
    """Chromium, headless, with a profile of its own; messages end with a zero byte on descriptors 3 and 4."""

    def __init__(self, program, profile):
        (down, self.write_end), (self.read_end, up) = os.pipe(), os.pipe()
        words = [program, "--headless=new", "--disable-gpu", "--hide-scrollbars", "--no-first-run", "--remote-debugging-pipe",
                 "--user-data-dir=" + profile, "about:blank"]
        if os.geteuid() == 0:
            words.insert(1, "--no-sandbox")

        def descriptors():
            # above 4 first, so that neither end is closed by the other's place
            spare = [os.dup(end) for end in (down, up, 0, 0, 0)]
            os.dup2(spare[0], 3)
            os.dup2(spare[1], 4)

        self.process = subprocess.Popen(words, preexec_fn=descriptors, close_fds=False, stderr=subprocess.DEVNULL)
        os.close(down)
        os.close(up)
        self.buffer, self.number, self.events, self.session = b"", 0, [], None
        target = self.ask("Target.createTarget", url="about:blank")["targetId"]
        self.session = self.ask("Target.attachToTarget", targetId=target, flatten=True)["sessionId"]
        for domain in ("Page", "Runtime", "Log", "Network"):
            self.ask(domain + ".enable")
        self.ask("Emulation.setEmulatedMedia", features=[{"name": "prefers-reduced-motion", "value": "reduce"}])

    def message(self):
        while b"\0" not in self.buffer:
            part = os.read(self.read_end, 1 << 20)
            if not part:
                raise SystemExit("chromium went away")
            self.buffer += part
        text, self.buffer = self.buffer.split(b"\0", 1)
        return json.loads(text)

    def ask(self, method, **parameters):
        self.number += 1
        call = {"id": self.number, "method": method, "params": parameters}
        if self.session:
            call["sessionId"] = self.session
        data = json.dumps(call).encode() + b"\0"
        while data:
            data = data[os.write(self.write_end, data):]
        while True:
            answer = self.message()
            if answer.get("id") == self.number:
                if "error" in answer:
                    raise SystemExit(f"{method}: {answer['error']}")
                return answer["result"]
            self.events.append(answer)

    def wait(self, method):
        while not any(event.get("method") == method for event in self.events):
            self.events.append(self.message())

    def value(self, expression):
        answer = self.ask("Runtime.evaluate", expression=expression, returnByValue=True, awaitPromise=True)
        if "exceptionDetails" in answer:
            raise SystemExit(f"{expression}: {answer['exceptionDetails']}")
        return answer["result"].get("value")

    def size(self, width, height, is_phone):
        self.ask("Emulation.setDeviceMetricsOverride", width=width, height=height, deviceScaleFactor=1, mobile=is_phone)

    def open(self, path, has_script=True):
        """Opens a page, and gives the seconds until it was loaded and, where it may run a script, painted."""
        self.events.clear()
        begin = time.monotonic()
        self.ask("Page.navigate", url="file://" + path)
        self.wait("Page.loadEventFired")
        if has_script:
            self.value("new Promise(done => requestAnimationFrame(() => requestAnimationFrame(() => done(1))))")
        return time.monotonic() - begin

    def complaints(self):
        """What the console said, and every request but the page's own."""
        said = [event for event in self.events if event.get("method") in
                ("Runtime.exceptionThrown", "Runtime.consoleAPICalled", "Log.entryAdded", "Security.certificateError")]
        asked = [event["params"]["request"]["url"] for event in self.events if event.get("method") == "Network.requestWillBeSent"]
        return said, asked

    def key(self, name):
        for kind in ("keyDown", "keyUp"):
            self.ask("Input.dispatchKeyEvent", type=kind, key=name, code=name, windowsVirtualKeyCode=KEYS[name])

    def hover(self, x, y):
        self.ask("Input.dispatchMouseEvent", type="mouseMoved", x=x, y=y)

    def picture(self, path, whole=False):
        size = {"captureBeyondViewport": True} if whole else {}
        if whole:
            box = self.ask("Page.getLayoutMetrics")["cssContentSize"]
            size["clip"] = {"x": 0, "y": 0, "width": box["width"], "height": min(box["height"], 12000), "scale": 1}
        data = self.ask("Page.captureScreenshot", format="png", **size)["data"]
        with open(path, "wb") as file:
            file.write(base64.b64decode(data))

    def printed(self, path):
        """The page as PDF, and its number of sheets."""
        data = base64.b64decode(self.ask("Page.printToPDF", preferCSSPageSize=True, printBackground=True)["data"])
        with open(path, "wb") as file:
            file.write(data)
        return len(re.findall(rb"/Type\s*/Page\b", data))

    def close(self):
        self.session = None
        self.ask("Browser.close")
        self.process.wait(20)


KEYS = {"ArrowLeft": 37, "ArrowUp": 38, "ArrowRight": 39, "ArrowDown": 40, "Home": 36, "End": 35, "Escape": 27, "Enter": 13, "Tab": 9}

# Each is true of every page; what is not is told by its name.
DOM = {
    "one h1, and a main, a header and a title": "document.querySelectorAll('h1').length === 1 && !!document.querySelector('main') "
        "&& !!document.querySelector('body > header') && document.title.length > 0 && document.documentElement.lang === 'en'",
    "sections with headings": "[...document.querySelectorAll('section')]"
        ".every(one => document.getElementById(one.getAttribute('aria-labelledby'))?.tagName === 'H2')",
    "anchors once": "new Set([...document.querySelectorAll('[id]')].map(one => one.id)).size === document.querySelectorAll('[id]').length",
    "links to anchors": "[...document.querySelectorAll('a')].every(one => one.hash.length > 1 "
        "&& document.getElementById(one.hash.slice(1)))",
    "links and cells have names": "[...document.querySelectorAll('a, td[tabindex], svg')]"
        ".every(one => (one.getAttribute('aria-label') || one.textContent).trim())",
    "one tab stop in the grid": "document.querySelectorAll('.grid [tabindex=\"0\"]').length === document.querySelectorAll('.grid').length",
    "nothing loaded": "performance.getEntriesByType('resource').length === 0",
    "no script but ours": "document.scripts.length === 1 "
        "&& !document.querySelector('main script, header script, [onclick], [onload], [onerror]')",
    "header cells have a scope": "[...document.querySelectorAll('th')].every(one => one.scope)",
}

FITS = "document.documentElement.scrollWidth <= document.documentElement.clientWidth"

# The least contrast of all text with the colour behind it; text over a picture of two colours is left out.
CONTRAST = """(() => {
  const canvas = document.createElement('canvas').getContext('2d', {willReadFrequently: true});
  const known = new Map();
  const colour = text => {
    if (!known.has(text)) {
      canvas.clearRect(0, 0, 1, 1); canvas.fillStyle = text; canvas.fillRect(0, 0, 1, 1);
      known.set(text, [...canvas.getImageData(0, 0, 1, 1).data]);
    }
    return known.get(text);
  };
  const light = rgb => rgb.slice(0, 3).map(c => c / 255).map(c => c <= 0.04045 ? c / 12.92 : ((c + 0.055) / 1.055) ** 2.4)
    .reduce((sum, c, at) => sum + c * [0.2126, 0.7152, 0.0722][at], 0);
  const behind = one => {
    for (; one; one = one.parentElement) {
      const rgba = colour(getComputedStyle(one).backgroundColor);
      if (rgba[3] === 255) return rgba;
    }
    return [255, 255, 255, 255];
  };
  let least = [99, ''];
  for (const one of document.querySelectorAll('body *:not(script):not(svg):not(path)')) {
    if (one.closest('.differs') || ![...one.childNodes].some(node => node.nodeType === 3 && node.data.trim())) continue;
    const [a, b] = [light(colour(getComputedStyle(one).color)), light(behind(one))];
    const ratio = (Math.max(a, b) + 0.05) / (Math.min(a, b) + 0.05);
    if (ratio < least[0]) least = [ratio, one.outerHTML.slice(0, 120)];
  }
  return least;
})()"""

SHOWN = "getComputedStyle(document.activeElement, '::after').content"
LABEL = "document.activeElement.getAttribute('aria-label')"
CELLS = "[...document.querySelectorAll('.grid tbody [aria-label]')]"


class Test:
    def __init__(self, browser, folder):
        self.browser, self.folder, self.passed, self.failed = browser, folder, 0, []

    def holds(self, name, what, is_so):
        if is_so:
            self.passed += 1
        else:
            self.failed.append(f"{name}: {what}")

    def every_page(self, name, path):
        """What holds of every page, at both sizes; gives the seconds that it took to open."""
        self.browser.size(*LAPTOP)
        seconds = self.browser.open(path)
        for what, expression in DOM.items():
            self.holds(name, what, self.browser.value(expression))
        self.holds(name, "fits a laptop", self.browser.value(FITS))
        ratio, where = self.browser.value(CONTRAST)
        self.holds(name, f"contrast of 4.5, least {ratio:.2f} of {where}", ratio >= 4.5)
        self.browser.picture(f"{self.folder}/{name}-laptop.png", whole=True)
        self.browser.size(*PHONE)
        self.holds(name, "fits a phone", self.browser.value(FITS))
        self.browser.picture(f"{self.folder}/{name}-phone.png", whole=True)
        self.browser.size(*LAPTOP)
        said, asked = self.browser.complaints()
        self.holds(name, f"console: {said}", not said)
        self.holds(name, f"requests: {asked}", len(asked) == 1 and asked[0].startswith("file://"))
        return seconds

    def cells(self, name, slots):
        """The grid's cells, where each is a slot, against the lines of `show --slots`."""
        labels = self.browser.value(CELLS + ".map(one => one.getAttribute('aria-label'))")
        pattern = re.compile(r"(\S+) (\S+) to \S+, ([\d,]+) Wh\n.*: quality (.), method (\d+)")
        lines = [",".join(part.replace(",", "") for part in pattern.fullmatch(label).groups()) for label in labels]
        self.holds(name, "cells as show --slots", lines == slots)

    def keyboard(self, name):
        """Arrow keys through the slots; what is focused is told, and a way is unfolded by its link."""
        browser = self.browser
        browser.value(CELLS + "[0].focus()")
        for key, at in (("ArrowRight", 1), ("ArrowRight", 2), ("ArrowLeft", 1), ("Home", 0), ("ArrowUp", 0)):
            browser.key(key)
            self.holds(name, f"{key} to cell {at}", browser.value(f"{CELLS}[{at}] === document.activeElement"))
        shown = browser.value(SHOWN)
        self.holds(name, "a focused cell is told", json.loads(shown.replace("\n", "\\n").replace("\\a ", "\\n")) == browser.value(LABEL))
        browser.key("Escape")
        self.holds(name, "Escape hides what is told", browser.value(SHOWN) == "none")

    def links(self, name):
        """Each of the first links of the grid unfolds its way, and the way leads back."""
        browser = self.browser
        count = browser.value("document.querySelectorAll('.grid a[href^=\"#way-\"]').length")
        for at in range(min(count, 3)):
            link = f"document.querySelectorAll('.grid a[href^=\"#way-\"]')[{at}]"
            browser.value(link + ".click()")
            time.sleep(0.2)
            opened = f"document.getElementById({link}.hash.slice(1))"
            is_open = f"{opened}.closest('details').open && {opened}.checkVisibility()"
            in_view = f"(box => box.bottom > 0 && box.top < innerHeight)({opened}.getBoundingClientRect())"
            self.holds(name, "a link unfolds its way", browser.value(is_open))
            self.holds(name, "and it is in view", browser.value(in_view))
            browser.value(opened + ".querySelector('a').click()")
            self.holds(name, "and back", browser.value(f"location.hash === '#' + {link}.id"))
        return count

    def hovered(self, name, cells):
        """Pictures of what hovering tells, at both sizes."""
        for size, way in ((LAPTOP, "laptop"), (PHONE, "phone")):
            self.browser.size(*size)
            for place, at in cells:
                self.browser.value("scrollTo(0, document.querySelector('.grid').getBoundingClientRect().top + scrollY - 60)")
                self.browser.value(f"{CELLS}[{at}].scrollIntoView({{block: 'nearest', inline: 'nearest'}})")
                where = self.browser.value(f"{CELLS}[{at}].getBoundingClientRect().toJSON()")
                self.browser.hover(where["x"] + where["width"] / 2, where["y"] + where["height"] / 2)
                shown = self.browser.value(f"getComputedStyle({CELLS}[{at}], '::after').content")
                self.holds(name, f"hovering cell {at} tells it", "Wh" in shown)
                self.browser.picture(f"{self.folder}/{name}-{way}-{place}.png")
        self.browser.size(*LAPTOP)


def lines(path):
    with open(path, encoding="utf-8") as file:
        return file.read().split("\n")[1:-1]


def main():
    program, profile, folder = sys.argv[1:4]
    signal.alarm(600)
    browser = Browser(program, profile)
    test = Test(browser, folder)
    for name in sys.argv[4:]:
        path = f"{folder}/{name}.html"
        seconds = test.every_page(name, path)
        sheets = browser.printed(f"{folder}/{name}.pdf")
        print(f"{name}: {os.path.getsize(path):,} bytes, open and painted in {seconds:.2f} s, sheets: {sheets}")
        test.holds(name, f"opens in two seconds, {seconds:.2f}", seconds < 2)
        if os.path.exists(f"{folder}/{name}.slots"):
            test.cells(name, lines(f"{folder}/{name}.slots"))
        if browser.value("!!document.querySelector('.grid')"):
            test.keyboard(name)
        ways = test.links(name)
        if name == "markup":
            test.holds(name, "its comment is text", browser.value("document.querySelector('.comment').textContent.includes('<script>')"))
            test.holds(name, "nothing of it is markup", browser.value("!document.querySelector('i, img') && document.title !== 'run'"))
        if name == "two-offices":
            test.holds(name, "five slots are outlined", browser.value("document.querySelectorAll('.grid .differs a').length === 5"))
        if name == "month":
            test.holds(name, "prints on two sheets", sheets == 2)
            test.holds(name, "has ways", ways > 20)
            test.hovered(name, (("left", 3), ("middle", 487), ("right", 1487)))
            browser.ask("Emulation.setScriptExecutionDisabled", value=True)
            browser.open(path, has_script=False)
            test.holds(name, "without a script every cell is a tab stop", browser.value(CELLS + ".every(one => one.tabIndex === 0)"))
            test.links(name + " without a script")
            browser.ask("Emulation.setScriptExecutionDisabled", value=False)
    browser.close()
    for line in test.failed:
        print("FAILED " + line)
    print(f"{test.passed} passed, {len(test.failed)} failed")
    sys.exit(1 if test.failed else 0)


main()
