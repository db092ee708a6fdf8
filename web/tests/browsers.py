"""The browsers in which page.py tries the page."""
import base64
import hashlib
import inspect
import json
import os
import pathlib
import shutil
import socket
import subprocess
import sys
import tempfile
import time

from selenium import webdriver
from selenium.webdriver.chrome.service import Service
from selenium.webdriver.webkitgtk.service import Service as WebKitService


class Chromium:
    TESTS = ("try_", "chromium_")

    def __init__(self):
        options = webdriver.ChromeOptions()
        words = "headless=new no-sandbox disable-gpu hide-scrollbars window-size=900,1100"
        for word in words.split():
            options.add_argument(f"--{word}")
        options.set_capability("goog:loggingPrefs", {"browser": "ALL", "performance": "ALL"})
        self.driver = webdriver.Chrome(service=Service("/usr/bin/chromedriver"), options=options)
        self.driver.execute_cdp_cmd("Performance.enable", {"timeDomain": "threadTicks"})
        permissions = ["clipboardReadWrite", "clipboardSanitizedWrite"]
        self.driver.execute_cdp_cmd("Browser.grantPermissions", {"permissions": permissions})

    def with_script(self, file, script):
        self.driver.execute_cdp_cmd("Page.addScriptToEvaluateOnNewDocument", {"source": script})
        return file

    def worked(self):
        """Seconds of the processor, since those of the clock depend on what else runs."""
        measured = self.driver.execute_cdp_cmd("Performance.getMetrics", {})["metrics"]
        return next(each["value"] for each in measured if each["name"] == "TaskDuration")

    def emulate(self, scheme, width, height, forced):
        features = {"prefers-color-scheme": scheme, "forced-colors": "active" if forced else "none"}
        media = {"features": [{"name": name, "value": value} for name, value in features.items()]}
        self.driver.execute_cdp_cmd("Emulation.setEmulatedMedia", media)
        size = {"width": width, "height": height, "deviceScaleFactor": 1, "mobile": False}
        self.driver.execute_cdp_cmd("Emulation.setDeviceMetricsOverride", size)


class Copied:
    """A browser that reads a copy of the page, with the scripts in it and in its policy."""

    TESTS = ("try_",)

    def with_script(self, file, script):
        digest = base64.b64encode(hashlib.sha256(script.encode()).digest()).decode()
        text = file.read_text(encoding="utf-8")
        text = text.replace("script-src ", f"script-src 'sha256-{digest}' ", 1)
        text = text.replace("<style>", f"<script>{script}</script><style>", 1)
        copy = file.with_name("copy.html")
        copy.write_text(text, encoding="utf-8")
        return copy

    def worked(self):
        """Only Chromium says how long the processor worked."""
        return 0


class Firefox(Copied):
    """Debian has no geckodriver. So Selenium's commands go to Firefox by its own protocol,
    Marionette.
    """

    PREFERENCES = {
        "dom.events.testing.asyncClipboard": True,
        "marionette.port": 0,
    }
    COMMANDS = {
        "clickElement": "ElementClick",
        "get": "Navigate",
        "sendKeysToElement": "ElementSendKeys",
        "w3cExecuteScript": "ExecuteScript",
        "w3cExecuteScriptAsync": "ExecuteAsyncScript",
        "w3cGetActiveElement": "GetActiveElement",
    }

    def __init__(self):
        self.folder = tempfile.TemporaryDirectory()
        profile = pathlib.Path(self.folder.name)
        lines = [f"user_pref({json.dumps(each)[1:-1]});" for each in self.PREFERENCES.items()]
        (profile / "user.js").write_text("\n".join(lines), encoding="utf-8")
        words = ("--headless", "--marionette", "--remote-allow-system-access", "--profile")
        self.process = subprocess.Popen(
            ["firefox-esr", *words, profile],
            env={**os.environ, "HOME": self.folder.name},
            stdout=subprocess.DEVNULL,
            stderr=subprocess.DEVNULL,
        )
        port = profile / "MarionetteActivePort"
        while not port.is_file() or not port.read_text():
            if self.process.poll() is not None:
                sys.exit("page: Firefox ended")
            time.sleep(0.1)
        self.stream = socket.create_connection(("127.0.0.1", int(port.read_text()))).makefile("rwb")
        self.answer()
        self.driver = webdriver.Remote(command_executor=self, options=webdriver.FirefoxOptions())

    def answer(self):
        # If Firefox has ended, this is no number.
        size = b"".join(iter(lambda: self.stream.read(1) or b":", b":"))
        return json.loads(self.stream.read(int(size)))

    def ask(self, name, words):
        message = json.dumps([0, 1, name, words]).encode()
        self.stream.write(b"%d:%s" % (len(message), message))
        self.stream.flush()
        return self.answer()[2:]

    def execute(self, command, words):
        """Selenium calls this, and `close` after `quit`."""
        if command == "quit":
            return self.ask("Marionette:Quit", {"flags": ["eForceQuit"]}) and {}
        words = {} if command == "newSession" else {**words}
        words.pop("sessionId", None)
        name = self.COMMANDS.get(command, f"{command[0].upper()}{command[1:]}")
        error, value = self.ask(f"WebDriver:{name}", words)
        if error:
            return {"status": 400, "value": json.dumps({"value": error})}
        return {"value": value["value"] if list(value) == ["value"] else value}

    def close(self):
        self.process.wait()
        self.folder.cleanup()


class WebKit(Copied):
    def __init__(self):
        options = webdriver.WebKitGTKOptions()
        options.add_argument("--automation")
        options.add_argument("--javascript-can-access-clipboard=true")
        path = shutil.which("WebKitWebDriver")
        # The Selenium of Debian 12 takes no service, and that of sid no path.
        has_service = "service" in inspect.signature(webdriver.WebKitGTK).parameters
        words = {"service": WebKitService(path)} if has_service else {"executable_path": path}
        self.driver = webdriver.WebKitGTK(options=options, **words)
        self.driver.set_window_rect(0, 0, 900, 1100)
