"""A browser without a window, driven by its DevTools protocol: JSON in a WebSocket (RFC 6455)."""
import base64, json, os, shutil, socket, struct, subprocess, tempfile, urllib.request

COMMAND = [
    "chromium",
    "--headless=new",
    "--no-sandbox",
    "--disable-gpu",
    "--disable-dev-shm-usage",
    "--no-first-run",
    "--disable-extensions",
    "--disable-background-networking",
    "--hide-scrollbars",
    "--remote-debugging-port=0",
]
KEYS = {"Tab": (9, ""), "Enter": (13, "\r")}
SECONDS = 60


class WebSocket:
    def __init__(self, port, path):
        self.peer = socket.create_connection(("127.0.0.1", port), SECONDS)
        key = base64.b64encode(os.urandom(16)).decode()
        head = [
            "GET " + path + " HTTP/1.1",
            f"Host: 127.0.0.1:{port}",
            "Upgrade: websocket",
            "Connection: Upgrade",
            f"Sec-WebSocket-Key: {key}",
            "Sec-WebSocket-Version: 13",
            "",
            "",
        ]
        self.peer.sendall("\r\n".join(head).encode())
        head = b""
        while not head.endswith(b"\r\n\r\n"):
            head += self.read(1)
        assert head.startswith(b"HTTP/1.1 101 "), head

    def read(self, count):
        data = b""
        while len(data) < count:
            part = self.peer.recv(count - len(data))
            assert part, "the browser has ended"
            data += part
        return data

    def send(self, text):
        data, mask = text.encode(), os.urandom(4)
        length = bytes([128 | len(data)]) if len(data) < 126 else b"\xfe" + struct.pack(">H", len(data))
        self.peer.sendall(b"\x81" + length + mask + bytes(byte ^ mask[i % 4] for i, byte in enumerate(data)))

    def receive(self):
        """The next message of text; control frames are empty objects."""
        data = b""
        while True:
            first, length = self.read(2)
            if length == 126:
                (length,) = struct.unpack(">H", self.read(2))
            elif length == 127:
                (length,) = struct.unpack(">Q", self.read(8))
            data += self.read(length)
            if first & 128:
                return data.decode() if first & 15 < 2 else "{}"


class Browser:
    """One page of a Chromium that ends with `end`."""

    def __init__(self):
        self.folder = tempfile.mkdtemp(prefix="browser.")
        words = [*COMMAND, f"--user-data-dir={self.folder}", "about:blank"]
        self.process = subprocess.Popen(words, stdout=subprocess.DEVNULL, stderr=subprocess.PIPE, text=True)
        line = next(line for line in self.process.stderr if line.startswith("DevTools listening on "))
        port = int(line.split(":")[-1].split("/")[0])
        with urllib.request.urlopen(f"http://127.0.0.1:{port}/json", timeout=SECONDS) as reply:
            page = next(it for it in json.load(reply) if it["type"] == "page")
        self.socket = WebSocket(port, page["webSocketDebuggerUrl"].split(str(port), 1)[1])
        self.count, self.events = 0, []
        for domain in ("Page", "Network", "Runtime"):
            self.call(f"{domain}.enable")

    def receive(self):
        message = json.loads(self.socket.receive())
        if "method" in message:
            self.events.append(message["method"])
        return message

    def call(self, method, **params):
        self.count += 1
        self.socket.send(json.dumps({"id": self.count, "method": method, "params": params}))
        while (message := self.receive()).get("id") != self.count:
            pass
        assert "error" not in message, (method, message)
        return message["result"]

    def wait_for_page(self):
        while "Page.loadEventFired" not in self.events:
            self.receive()
        self.events.clear()

    def open(self, address):
        self.events.clear()
        self.call("Page.navigate", url=address)
        self.wait_for_page()

    def show(self, width, scheme, language):
        """How pages are shown from now on: `light`, `dark`, `forced` (the reader's few colours), `print`."""
        self.call("Emulation.setDeviceMetricsOverride", width=width, height=800, deviceScaleFactor=1, mobile=False)
        features = {
            "prefers-color-scheme": "dark" if scheme == "dark" else "light",
            "forced-colors": "active" if scheme == "forced" else "none",
        }
        self.call(
            "Emulation.setEmulatedMedia",
            media="print" if scheme == "print" else "screen",
            features=[{"name": name, "value": value} for name, value in features.items()],
        )
        self.call("Network.setExtraHTTPHeaders", headers={"Accept-Language": language})

    def slow_down(self, latency, bits):
        """From now on a reply begins after this number of milliseconds, and has this number of bits a second."""
        self.call(
            "Network.emulateNetworkConditions",
            offline=False,
            latency=latency,
            downloadThroughput=bits / 8,
            uploadThroughput=bits / 8,
        )

    def names_of(self, role):
        """The names that a screen reader says for what has a role in the page, such as `link`."""
        nodes = self.call("Accessibility.getFullAXTree")["nodes"]
        shown = [it for it in nodes if not it.get("ignored") and it.get("role", {}).get("value") == role]
        return [it.get("name", {}).get("value", "") for it in shown]

    def value(self, script):
        return self.call("Runtime.evaluate", expression=script, returnByValue=True)["result"].get("value")

    def press(self, name):
        code, text = KEYS[name]
        words = {"key": name, "code": name, "windowsVirtualKeyCode": code}
        self.call("Input.dispatchKeyEvent", type="keyDown", **words, **({"text": text} if text else {}))
        self.call("Input.dispatchKeyEvent", type="keyUp", **words)

    def write(self, text):
        self.call("Input.insertText", text=text)

    def save_picture(self, path):
        picture = self.call("Page.captureScreenshot", format="png", captureBeyondViewport=True)["data"]
        with open(path, "wb") as file:
            file.write(base64.b64decode(picture))

    def end(self):
        self.process.terminate()
        self.process.wait()
        shutil.rmtree(self.folder, ignore_errors=True)
