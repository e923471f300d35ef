"""The pages in a headless Chromium, where there is one: the slider by keyboard, the button that copies again, and no
complaint of the browser's."""

import fcntl
import json
import os
import shutil
import subprocess
import tempfile
import time
import unittest
from collections.abc import Callable
from typing import Any

import timestore

from .base import BrowseTest

CHROMIUM = shutil.which("chromium") or shutil.which("chromium-browser") or shutil.which("google-chrome")
FLAGS = "--headless", "--no-sandbox", "--disable-gpu", "--no-first-run", "--remote-debugging-pipe"
PATIENCE_SECONDS = 30.0
KEYS = {"Tab": 9, "End": 35, "Home": 36, "ArrowLeft": 37}
COMPLAINTS = ("Runtime.exceptionThrown", "Log.entryAdded")


class Tab:
    """A tab of a Chromium of its own, which is spoken to in JSON over two pipes: it reads 3 and writes 4."""

    def __init__(self, profile: str) -> None:
        assert CHROMIUM is not None  # else the tests are left out
        reads, self._out = os.pipe()
        self._in, writes = os.pipe()
        # (both above 9, so that neither is 3 or 4)
        ends = [fcntl.fcntl(end, fcntl.F_DUPFD, 10) for end in (reads, writes)]
        script = f'exec "$0" "$@" 3<&{ends[0]} 4>&{ends[1]}'
        words = ["bash", "-c", script, CHROMIUM, *FLAGS, f"--user-data-dir={profile}"]
        self._process = subprocess.Popen(words, pass_fds=ends, stdout=subprocess.DEVNULL, stderr=subprocess.DEVNULL)
        for end in (reads, writes, *ends):
            os.close(end)
        self._buffer = b""
        self._count = 0
        self._session = ""
        self.complaints: list[str] = []
        target = self.call("Target.createTarget", url="about:blank")["targetId"]
        self._session = self.call("Target.attachToTarget", targetId=target, flatten=True)["sessionId"]
        for part in ("Page", "Runtime", "Log"):
            self.call(f"{part}.enable")

    def close(self) -> None:
        """Ends the browser."""
        self._process.kill()
        self._process.wait()
        os.close(self._in)
        os.close(self._out)

    def _read(self) -> dict[str, Any]:
        while b"\0" not in self._buffer:
            found = os.read(self._in, 65_536)
            if not found:
                raise EOFError("Chromium has ended")
            self._buffer += found
        message, _, self._buffer = self._buffer.partition(b"\0")
        return dict(json.loads(message))

    def call(self, method: str, **parameters: object) -> Any:
        """The result of a method of the browser."""
        self._count += 1
        message = {"id": self._count, "method": method, "params": parameters, **({"sessionId": self._session} if self._session else {})}
        os.write(self._out, json.dumps(message).encode() + b"\0")
        while (answer := self._read()).get("id") != self._count:
            if answer.get("method") in COMPLAINTS:
                self.complaints.append(json.dumps(answer["params"]))
        if "error" in answer:
            raise RuntimeError(f"{method}: {answer['error']}")
        return answer["result"]

    def value(self, script: str) -> object:
        """What a script gives."""
        return self.call("Runtime.evaluate", expression=script, returnByValue=True)["result"].get("value")

    def text(self, script: str) -> str:
        """The same of a script that gives a text."""
        return str(self.value(script))

    def press(self, key: str) -> None:
        """Presses a key where the focus is."""
        for kind in ("rawKeyDown", "keyUp"):
            self.call("Input.dispatchKeyEvent", type=kind, key=key, code=key, windowsVirtualKeyCode=KEYS[key])


@unittest.skipUnless(CHROMIUM, "there is no Chromium")
class InChromium(BrowseTest):
    def setUp(self) -> None:
        super().setUp()
        self.server = self.serve()
        profile = tempfile.TemporaryDirectory(ignore_cleanup_errors=True)
        self.addCleanup(profile.cleanup)
        self.tab = Tab(profile.name)
        self.addCleanup(self.tab.close)

    def open(self, path: str) -> None:
        """Shows a page."""
        address = f"http://127.0.0.1:{self.server.server_port}{path}"
        self.tab.call("Page.navigate", url=address)
        self.wait(lambda: self.tab.value("document.readyState + location.href") == f"complete{address}")

    def wait(self, is_so: Callable[[], bool]) -> None:
        """Waits until something is so."""
        end = time.monotonic() + PATIENCE_SECONDS
        while not is_so():
            self.assertLess(time.monotonic(), end)
            time.sleep(0.05)

    def wait_for(self, moment: str) -> None:
        """Waits until the page tells that the slider stands somewhere."""
        self.wait(lambda: self.tab.text("document.getElementById('moment').textContent").startswith(f"{moment}:"))

    def test_slider_by_keyboard(self) -> None:
        self.open("/relations/1")
        self.assertTrue(self.tab.value("document.getElementById('show').hidden"))
        focus: list[str] = []
        while "step" not in focus and len(focus) < 20:
            self.tab.press("Tab")
            focus.append(self.tab.text("document.activeElement.id || document.activeElement.textContent"))
        self.assertEqual(focus, ["Skip to the content", "Relations", "Commits", "Copy again", "step"])
        for key, step, rows in (("ArrowLeft", 3, ["8"]), ("Home", 1, ["7"]), ("End", 4, ["7", "8"])):
            self.tab.press(key)
            self.wait_for(f"Change {step} of 4")
            self.assertEqual(self.tab.value("[...document.querySelectorAll('tbody th')].map(it => it.textContent)"), rows)
            self.assertEqual(self.tab.value("location.search"), f"?step={step - 1}")
        self.assertEqual(self.tab.complaints, [])

    def test_copy_again(self) -> None:
        self.open("/relations/1")
        with timestore.Store(self.folder) as store, store.begin(now=200) as txn:
            txn.put(1, 9, b"z")
        self.tab.value("document.querySelector('nav button').click()")
        self.wait(lambda: self.tab.value("document.readyState + location.pathname") == "complete/")
        self.assertIn("7 commits", self.tab.text("document.querySelector('main').textContent"))
        self.assertEqual(self.tab.complaints, [])

    def test_picture(self) -> None:
        """Each text of the picture stands in its box, and the page is no wider than the window."""
        self.open("/relations/1/records/7")
        script = "[...document.querySelectorAll('svg svg text')].every(it => it.getBBox().x + it.getBBox().width < 132)"
        self.assertTrue(self.tab.value(script))
        self.tab.call("Emulation.setDeviceMetricsOverride", width=400, height=700, deviceScaleFactor=1, mobile=False)
        self.assertTrue(self.tab.value("document.documentElement.scrollWidth <= window.innerWidth"))
        self.assertEqual(self.tab.complaints, [])
