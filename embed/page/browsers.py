"""Drives Chromium and Firefox without a window, by what each listens to itself: no driver and no package of Python is needed."""
import base64
import json
import os
import shutil
import signal
import socket
import subprocess
import tempfile
import time

PATIENCE = 120


class Broken(Exception):
    """Why a browser does not answer."""


class Browser:
    """A browser with a profile of its own, which ends with it."""

    def __init__(self, words):
        self.home = tempfile.mkdtemp(prefix="qtree-page-")
        self.words = words

    def __enter__(self):
        return self

    def __exit__(self, *_):
        try:
            os.killpg(self.process.pid, signal.SIGKILL)
        except ProcessLookupError:
            pass
        self.process.wait()
        shutil.rmtree(self.home, ignore_errors=True)


class Chromium(Browser):
    """Chromium over a pipe: messages in JSON, each with a zero byte behind it."""

    flags = ("--headless=new", "--no-sandbox", "--disable-gpu", "--no-first-run", "--disable-background-networking",
             "--disable-component-update", "--disable-sync", "--hide-scrollbars", "--remote-debugging-pipe")

    def __init__(self, program):
        super().__init__(program)
        to_browser, self.to = os.pipe()
        self.source, from_browser = os.pipe()
        wired = 'exec 3<&"$0" 4>&"$1"; shift; exec "$@"'
        words = ["sh", "-c", wired, str(to_browser), str(from_browser), program, *self.flags, f"--user-data-dir={self.home}", "about:blank"]
        self.process = subprocess.Popen(words, pass_fds=(to_browser, from_browser), start_new_session=True, stdin=subprocess.DEVNULL,
                                        stdout=subprocess.DEVNULL, stderr=subprocess.DEVNULL)
        os.close(to_browser)
        os.close(from_browser)
        self.rest, self.count, self.session, self.heard = b"", 0, None, []
        target = self.send("Target.createTarget", url="about:blank")["targetId"]
        self.session = self.send("Target.attachToTarget", targetId=target, flatten=True)["sessionId"]
        for it in ("Page", "Runtime", "Network"):
            self.send(f"{it}.enable")

    def message(self):
        while b"\0" not in self.rest:
            some = os.read(self.source, 1 << 20)
            if not some:
                raise Broken("chromium has ended")
            self.rest += some
        one, _, self.rest = self.rest.partition(b"\0")
        return json.loads(one)

    def send(self, method, **given):
        self.count += 1
        asked = {"id": self.count, "method": method, "params": given} | ({"sessionId": self.session} if self.session else {})
        data = json.dumps(asked).encode() + b"\0"
        while data:
            data = data[os.write(self.to, data) :]
        while True:
            got = self.message()
            if got.get("id") == self.count:
                if "error" in got:
                    raise Broken(f"{method}: {got['error']['message']}")
                return got["result"]
            self.heard.append(got)

    def requests(self):
        """The addresses that were asked for."""
        return [it["params"]["request"]["url"] for it in self.heard if it.get("method") == "Network.requestWillBeSent"]

    def errors(self):
        return [it["params"]["exceptionDetails"]["text"] for it in self.heard if it.get("method") == "Runtime.exceptionThrown"]

    def open(self, address):
        self.send("Page.navigate", url=address)

    def run(self, text):
        """What the body of an async function returns."""
        got = self.send("Runtime.evaluate", expression=f"(async () => {{{text}}})()", awaitPromise=True, returnByValue=True)
        if "exceptionDetails" in got:
            raise Broken(got["exceptionDetails"].get("exception", {}).get("description", "an exception"))
        return got["result"].get("value")

    def size(self, width, height, dark=False):
        self.send("Emulation.setDeviceMetricsOverride", width=width, height=height, deviceScaleFactor=1, mobile=width < 600)
        self.send("Emulation.setEmulatedMedia", features=[{"name": "prefers-color-scheme", "value": "dark" if dark else "light"}])

    def picture(self, path):
        data = self.send("Page.captureScreenshot", format="png", captureBeyondViewport=True)["data"]
        with open(path, "wb") as file:
            file.write(base64.b64decode(data))


class Firefox(Browser):
    """Firefox over Marionette: messages in JSON, each behind its length and a colon."""

    def __init__(self, program):
        super().__init__(program)
        with open(f"{self.home}/user.js", "w", encoding="utf-8") as file:
            file.write('user_pref("marionette.port", 0);\nuser_pref("network.captive-portal-service.enabled", false);\n'
                       'user_pref("datareporting.policy.dataSubmissionEnabled", false);\nuser_pref("app.update.enabled", false);\n')
        words = [program, "--headless", "--marionette", "--no-remote", "--profile", self.home]
        self.process = subprocess.Popen(words, start_new_session=True, stdin=subprocess.DEVNULL, stdout=subprocess.DEVNULL,
                                        stderr=subprocess.DEVNULL)
        self.connection, self.rest, self.count = self.connected(), b"", 0
        self.message()
        self.send("WebDriver:NewSession")
        self.send("WebDriver:SetTimeouts", script=PATIENCE * 1000)

    def connected(self):
        path = f"{self.home}/MarionetteActivePort"
        for _ in range(PATIENCE * 10):
            if os.path.exists(path) and os.path.getsize(path) > 0:
                with open(path, encoding="utf-8") as file:
                    return socket.create_connection(("127.0.0.1", int(file.read())), PATIENCE)
            time.sleep(0.1)
        raise Broken("firefox does not listen")

    def message(self):
        while b":" not in self.rest:
            self.rest += self.some()
        length, _, self.rest = self.rest.partition(b":")
        while len(self.rest) < int(length):
            self.rest += self.some()
        one, self.rest = self.rest[: int(length)], self.rest[int(length) :]
        return json.loads(one)

    def some(self):
        some = self.connection.recv(1 << 20)
        if not some:
            raise Broken("firefox has ended")
        return some

    def send(self, command, **given):
        self.count += 1
        data = json.dumps([0, self.count, command, given]).encode()
        self.connection.sendall(f"{len(data)}:".encode() + data)
        _, _, error, result = self.message()
        if error:
            raise Broken(f"{command}: {error['message']}")
        return result

    def open(self, address):
        self.send("WebDriver:Navigate", url=address)

    def run(self, text):
        script = f"const [done] = arguments; (async () => {{{text}}})().then(it => done([it]), error => done(String(error)));"
        got = self.send("WebDriver:ExecuteAsyncScript", script=script, args=[], sandbox=None, newSandbox=False)["value"]
        if not isinstance(got, list):
            raise Broken(got)
        return got[0]


KINDS = {"chromium": Chromium, "firefox-esr": Firefox}
