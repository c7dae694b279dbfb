"""Chromium without a window, for tests: spoken to by a pair of pipes."""
import base64
import itertools
import json
import os
import shutil
import subprocess
import time

KEYS = {'Tab': 9, 'Enter': 13, 'Escape': 27, ' ': 32, 'PageUp': 33, 'PageDown': 34, 'ArrowLeft': 37, 'ArrowRight': 39, 'a': 65, 'p': 80}
CONTROL = 2
NAME = 'chromium'


class Lost(Exception):
    """The browser is gone, refuses what it is asked, or takes too long."""


def is_there():
    """Is there a Chromium?"""
    return shutil.which(NAME) is not None


class Browser:
    """A browser with one page."""

    def __init__(self):
        read, self.out = os.pipe()
        self.back, write = os.pipe()
        command = ['sh', '-c', f'exec 3<&{read} 4>&{write}; exec {NAME} --headless --no-sandbox --disable-gpu --hide-scrollbars '
                   '--disable-features=IsolateSandboxedIframes --disable-extensions --disable-background-networking --disable-sync '
                   '--no-first-run --remote-debugging-pipe']
        self.process = subprocess.Popen(command, pass_fds=(read, write), stdout=subprocess.DEVNULL, stderr=subprocess.DEVNULL)
        os.close(read)
        os.close(write)
        self.numbers, self.rest, self.session = itertools.count(1), b'', {}
        target = self.call('Target.createTarget', url='about:blank')['targetId']
        self.session = {'sessionId': self.call('Target.attachToTarget', targetId=target, flatten=True)['sessionId']}
        self.call('Page.enable')
        self.call('Page.bringToFront')
        self.call('Emulation.setFocusEmulationEnabled', enabled=True)

    def __enter__(self):
        return self

    def __exit__(self, *_):
        self.close()

    def call(self, method, **parameters):
        number = next(self.numbers)
        message = {'id': number, 'method': method, 'params': parameters, **self.session}
        os.write(self.out, json.dumps(message).encode() + b'\0')
        while True:
            while b'\0' not in self.rest:
                came = os.read(self.back, 1 << 20)
                if not came:
                    raise Lost('the browser is gone')
                self.rest += came
            answer, self.rest = self.rest.split(b'\0', 1)
            told = json.loads(answer)
            if told.get('id') == number:
                if 'error' in told:
                    raise Lost(f'{method}: {told["error"]["message"]}')
                return told['result']

    def open(self, address):
        self.call('Page.navigate', url=address)
        self.wait('document.readyState === "complete"')

    def ask(self, expression, within=None):
        """The value of an expression of JavaScript, in the page or in a frame within it."""
        more = {'contextId': within} if within else {}
        result = self.call('Runtime.evaluate', expression=expression, returnByValue=True, awaitPromise=True, **more)
        if 'exceptionDetails' in result:
            raise Lost(f'{expression[:80]}: {result["exceptionDetails"].get("exception", {}).get("description", "")[:200]}')
        return result['result'].get('value')

    def frame(self):
        """The last frame within the page, to ask in."""
        frames = self.call('Page.getFrameTree')['frameTree'].get('childFrames', [])
        return self.call('Page.createIsolatedWorld', frameId=frames[-1]['frame']['id'])['executionContextId'] if frames else None

    def wait(self, expression, seconds=900):
        """Waits until an expression holds, and returns its value."""
        end = time.monotonic() + seconds
        while True:
            found = self.ask(expression)
            if found:
                return found
            if time.monotonic() > end:
                raise Lost(f'after {seconds} seconds this doesn\'t hold: {expression}')
            time.sleep(0.05)

    def show(self, width, media, scheme, height=900):
        self.call('Emulation.setDeviceMetricsOverride', width=width, height=height, deviceScaleFactor=1, mobile=False)
        self.call('Emulation.setEmulatedMedia', media=media, features=[{'name': 'prefers-color-scheme', 'value': scheme}])

    def shoot(self, path, whole=True):
        path.write_bytes(base64.b64decode(self.call('Page.captureScreenshot', captureBeyondViewport=whole)['data']))

    def printed(self):
        """The page as it prints, as a PDF."""
        return base64.b64decode(self.call('Page.printToPDF', preferCSSPageSize=True, printBackground=True)['data'])

    def press(self, key, modifiers=0):
        for kind in ('rawKeyDown', 'keyUp'):
            self.call('Input.dispatchKeyEvent', type=kind, key=key, code=key, windowsVirtualKeyCode=KEYS[key], modifiers=modifiers)

    def type(self, text):
        """Types a text in place of all that stands where the focus is."""
        self.call('Input.dispatchKeyEvent', type='rawKeyDown', key='a', code='KeyA', windowsVirtualKeyCode=KEYS['a'], modifiers=CONTROL,
                  commands=['selectAll'])
        self.call('Input.insertText', text=text)

    def close(self):
        self.session = {}
        try:
            self.call('Browser.close')
        except (Lost, OSError):
            self.process.kill()
        self.process.wait()
        os.close(self.out)
        os.close(self.back)
