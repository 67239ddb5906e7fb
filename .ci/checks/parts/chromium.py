"""A Chromium without a window, driven by its own protocol over a pipe: what a reader of a page does comes to it as real events."""
import base64
import json
import os
import re
import select
import shutil
import subprocess
import time
from collections.abc import Callable
from typing import Any

from checks.parts.steps import CHROMIUM

WORDS = ('--headless=new', '--no-sandbox', '--disable-gpu', '--no-first-run', '--disable-extensions', '--disable-component-update',
         '--disable-background-networking', '--hide-scrollbars', '--force-device-scale-factor=1', '--remote-debugging-pipe')
PATIENCE = 60  # seconds for an answer
KEYS = {'ArrowLeft': 37, 'ArrowRight': 39}  # those whose code isn't that of their character
PAINTED = 'new Promise((done) => requestAnimationFrame(() => requestAnimationFrame(() => done(true))))'


class BrowserFault(Exception):
    """The browser doesn't start, doesn't answer, or refuses what it was asked."""


def find() -> str:
    """The path of a Chromium, or no word."""
    return next(filter(None, map(shutil.which, CHROMIUM)), '')


def version(path: str) -> str:
    """Its name and version in a few words."""
    told = subprocess.run([path, '--version'], capture_output=True, check=False, timeout=PATIENCE).stdout.decode()
    return (re.findall(r'[\w ]+ [\d.]+', told) or ['a browser'])[0]


class Browser:
    """A browser with one page. `faults` has what its scripts threw and what it logged as errors."""

    def __init__(self, path: str, folder: str, width: int = 1200, height: int = 900):
        self.faults: list[str] = []
        self.events: list[str] = []
        self.number, self.rest, self.session = 0, b'', ''
        (theirs, self.writing), (self.reading, answers) = os.pipe(), os.pipe()
        words = [path, *WORDS, f'--user-data-dir={folder}/profile', f'--window-size={width},{height}', 'about:blank']
        # The browser reads what it is asked from descriptor 3, and answers on 4.
        self.process = subprocess.Popen(['bash', '-c', f'exec "$@" 3<&{theirs} 4>&{answers}', 'bash', *words], pass_fds=(theirs, answers),
                                        stdin=subprocess.DEVNULL, stdout=subprocess.DEVNULL, stderr=subprocess.DEVNULL)
        os.close(theirs)
        os.close(answers)
        target = next(it for it in self.ask('Target.getTargets')['targetInfos'] if it['type'] == 'page')
        self.session = self.ask('Target.attachToTarget', targetId=target['targetId'], flatten=True)['sessionId']
        for domain in ('Page', 'Runtime', 'Log'):
            self.ask(f'{domain}.enable')
        self.resize(width, height)

    def __enter__(self) -> 'Browser':
        return self

    def __exit__(self, *_: object) -> None:
        self.session = ''
        try:
            self.ask('Browser.close')
            self.process.wait(timeout=PATIENCE)
        except (BrowserFault, subprocess.TimeoutExpired):
            self.process.kill()
            self.process.wait()
        os.close(self.reading)
        os.close(self.writing)

    def take(self, until: float) -> dict[str, Any]:
        """The next message of the browser."""
        while b'\0' not in self.rest:
            ready, _, _ = select.select([self.reading], [], [], max(0, until - time.monotonic()))
            piece = os.read(self.reading, 1 << 20) if ready else b''
            if not piece:
                raise BrowserFault('the browser does not answer' if self.process.poll() is None else 'the browser has ended')
            self.rest += piece
        message, _, self.rest = self.rest.partition(b'\0')
        told: dict[str, Any] = json.loads(message)
        return told

    def note(self, message: dict[str, Any]) -> None:
        """Keeps an event, and what of it is a fault."""
        self.events.append(message['method'])
        told = message['params']
        if message['method'] == 'Runtime.exceptionThrown':
            self.faults.append(told['exceptionDetails'].get('exception', {}).get('description', told['exceptionDetails']['text']))
        elif message['method'] == 'Log.entryAdded' and told['entry']['level'] == 'error':
            self.faults.append(told['entry']['text'])

    def ask(self, method: str, **params: object) -> dict[str, Any]:
        """Asks for something, and gives the answer."""
        self.number += 1
        asked = {'id': self.number, 'method': method, 'params': params, **({'sessionId': self.session} if self.session else {})}
        try:
            os.write(self.writing, json.dumps(asked).encode() + b'\0')
        except OSError as error:
            raise BrowserFault(f'the browser has ended: {error}') from error
        until = time.monotonic() + PATIENCE
        while True:
            message = self.take(until)
            if 'method' in message:
                self.note(message)
            elif message['id'] == self.number:
                if 'error' in message:
                    raise BrowserFault(f'{method}: {message["error"]["message"]}')
                result: dict[str, Any] = message['result']
                return result

    def open(self, page: str, address: str = '') -> float:
        """Opens a page, and gives how many ms passed until it was loaded and painted."""
        self.events.clear()
        began = time.monotonic()
        self.ask('Page.navigate', url='about:blank')
        self.until_loaded()
        self.events.clear()
        began = time.monotonic()
        self.ask('Page.navigate', url=f'file://{page}{address}')
        self.until_loaded()
        self.value(PAINTED)
        return 1000 * (time.monotonic() - began)

    def until_loaded(self) -> None:
        until = time.monotonic() + PATIENCE
        while 'Page.loadEventFired' not in self.events:
            message = self.take(until)
            if 'method' in message:
                self.note(message)

    def value(self, expression: str) -> Any:
        """The value of an expression in the page."""
        told = self.ask('Runtime.evaluate', expression=expression, returnByValue=True, awaitPromise=True)
        if 'exceptionDetails' in told:
            raise BrowserFault(f'{expression[:200]}: {told["exceptionDetails"].get("exception", {}).get("description")}')
        return told['result'].get('value')

    def timed(self, act: Callable[..., object], *words: object) -> float:
        """How many ms pass from an act of the reader until what it does is painted."""
        began = time.monotonic()
        act(*words)
        self.value(PAINTED)
        return 1000 * (time.monotonic() - began)

    def mouse(self, kind: str, x: float, y: float, **more: object) -> None:
        self.ask('Input.dispatchMouseEvent', type=kind, x=x, y=y, **more)

    def click(self, x: float, y: float) -> None:
        for kind in ('mousePressed', 'mouseReleased'):
            self.mouse(kind, x, y, button='left', clickCount=1)

    def place_of(self, selector: str) -> tuple[float, float]:
        """The middle of the first element that a selector finds, once it is scrolled into the window."""
        place = self.value(f"""(() => {{
            const found = document.querySelector({json.dumps(selector)});
            if (!found) return null;
            found.scrollIntoView({{ block: 'center' }});
            const box = found.getBoundingClientRect();
            return [box.x + box.width / 2, box.y + box.height / 2];
        }})()""")
        if place is None:
            raise BrowserFault(f'the page has no {selector}')
        x, y = place
        return x, y

    def click_on(self, selector: str) -> None:
        self.click(*self.place_of(selector))

    def drag(self, selector: str, by: float) -> None:
        x, y = self.place_of(selector)
        self.mouse('mousePressed', x, y, button='left', clickCount=1)
        for step in (0.5, 1):
            self.mouse('mouseMoved', x + by * step, y, button='left', buttons=1)
        self.mouse('mouseReleased', x + by, y, button='left', clickCount=1)

    def wheel(self, selector: str, turned: float, modifiers: int = 0) -> None:
        x, y = self.place_of(selector)
        self.mouse('mouseWheel', x, y, deltaX=0, deltaY=turned, modifiers=modifiers)

    def press(self, key: str) -> None:
        code = KEYS.get(key, ord(key.upper()[0]))
        text = {} if key in KEYS else {'text': key}
        self.ask('Input.dispatchKeyEvent', type='keyDown', key=key, windowsVirtualKeyCode=code, **text)
        self.ask('Input.dispatchKeyEvent', type='keyUp', key=key, windowsVirtualKeyCode=code)

    def resize(self, width: int, height: int) -> None:
        self.ask('Emulation.setDeviceMetricsOverride', width=width, height=height, deviceScaleFactor=1, mobile=False)

    def prefer(self, scheme: str) -> None:
        """Light or dark, as the reader's setting says."""
        self.ask('Emulation.setEmulatedMedia', features=[{'name': 'prefers-color-scheme', 'value': scheme}])

    def picture(self, file: str) -> int:
        """Writes what is shown as a PNG."""
        shown = base64.b64decode(self.ask('Page.captureScreenshot', format='png', optimizeForSpeed=False)['data'])
        with open(file, 'wb') as picture:
            picture.write(shown)
        return len(shown)
