"""Headless Chromium, by WebDriver over plain HTTP (Debian's packages chromium and chromium-driver)."""
import contextlib
import json
import os
import re
import signal
import subprocess
import sys
import urllib.request

# The name under which WebDriver hands an element over.
ELEMENT = "element-6066-11e4-a52e-4f735466cecf"
# Within so many seconds each command is answered.
PATIENCE = 60


class Browser:
    """A browser of its own, as far as a script needs one."""

    def __init__(self, port, folder):
        self.place = f"http://127.0.0.1:{port}/session"
        # As root, for example in a container, Chromium runs only without its sandbox.
        words = [
            "--headless=new",
            "--no-sandbox",
            "--disable-gpu",
            "--disable-dev-shm-usage",
            "--no-proxy-server",
            f"--user-data-dir={folder}/browser",
        ]
        options = {"args": words}
        wanted = {
            "capabilities": {
                "alwaysMatch": {"browserName": "chrome", "goog:chromeOptions": options}
            }
        }
        self.place += "/" + self.ask("POST", "", wanted)["sessionId"]

    def ask(self, method, path, body=None):
        """What the driver answers to a command."""
        content = None if body is None else json.dumps(body).encode()
        request = urllib.request.Request(
            self.place + path, content, {"content-type": "application/json"}, method=method
        )
        with urllib.request.urlopen(request, timeout=PATIENCE) as answer:
            return json.load(answer)["value"]

    def go(self, url):
        """Opens a page, and waits until all of it is loaded."""
        self.ask("POST", "/url", {"url": url})

    def run(self, script):
        """What a script of the page gives."""
        return self.ask("POST", "/execute/sync", {"script": script, "args": []})

    def control(self, name, **parameters):
        """Runs a command of the DevTools protocol."""
        self.ask("POST", "/goog/cdp/execute", {"cmd": name, "params": parameters})

    def faults(self):
        """Returns the warnings and errors of the pages since the last call, as of scripts and files that are not there."""
        return [it["message"] for it in self.ask("POST", "/se/log", {"type": "browser"})]

    def forget_files(self):
        """Keeps no file from one page to the next."""
        self.control("Network.setCacheDisabled", cacheDisabled=True)

    def title(self):
        return self.ask("GET", "/title")

    def url(self):
        return self.ask("GET", "/url")

    def cookies(self):
        """Its cookies for the page that it shows, by their names."""
        return {it["name"]: it for it in self.ask("GET", "/cookie")}

    def element(self, selector):
        """The path of an element of the page."""
        found = self.ask("POST", "/element", {"using": "css selector", "value": selector})
        return f"/element/{found[ELEMENT]}"

    def type_into(self, selector, text):
        self.ask("POST", self.element(selector) + "/value", {"text": text})

    def click(self, selector):
        """Clicks, and waits for the page that comes of it."""
        self.ask("POST", self.element(selector) + "/click", {})

    def close(self):
        self.ask("DELETE", "")


@contextlib.contextmanager
def driver(folder):
    """The driver at a free port, in a group of its own, so that no process of the browser outlives it: the port."""
    words = ["chromedriver", "--port=0", f"--log-path={folder}/driver.log"]
    with subprocess.Popen(
        words, stdin=subprocess.DEVNULL, stdout=subprocess.PIPE, text=True, start_new_session=True
    ) as started:
        try:
            for line in started.stdout:
                found = re.search(r"started successfully on port (\d+)", line)
                if found:
                    break
            else:
                sys.exit("bench: chromedriver does not start")
            yield int(found[1])
        finally:
            os.killpg(started.pid, signal.SIGKILL)


@contextlib.contextmanager
def browsing(folder):
    """A browser that keeps what it writes in a folder."""
    with driver(folder) as port, contextlib.closing(Browser(port, folder)) as browser:
        yield browser
