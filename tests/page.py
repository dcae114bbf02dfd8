#!/usr/bin/env python3
"""Tries the page: its server, and in a browser a sale by clicks, and what is to be seen of the devices then. Usage:
page.py LIBRARY [BROWSER [PICTURE]], as page.py libkijolvar.so chromium. Without BROWSER it tries the server alone. A
picture of the page goes into the file PICTURE. Its last line is 'N passed, M failed'."""
import base64
import http.client
import json
import os
import pathlib
import socket
import subprocess
import sys
import tempfile
import time

TOP = pathlib.Path(__file__).resolve().parent.parent
passed = failed = 0


def told(name, wanted, found):
    """Counts whether what was found is what was wanted."""
    global passed, failed
    if wanted == found:
        passed += 1
    else:
        failed += 1
        print(f"failed: {name}\n  wanted: {wanted!r}\n  found:  {found!r}")


class Browser:
    """A browser without a window, told over two pipes what to do (the protocol of its developer tools)."""

    def __init__(self, program, folder):
        theirs_in, self.out = os.pipe()
        self.into, theirs_out = os.pipe()
        words = [program, "--headless=new", "--no-sandbox", "--disable-gpu", "--no-first-run",
                 f"--user-data-dir={folder}", "--remote-debugging-pipe", "about:blank"]
        self.process = subprocess.Popen(
            ["bash", "-c", f'exec 3<&{theirs_in} 4>&{theirs_out}; exec "$@"', "browser", *words],
            pass_fds=(theirs_in, theirs_out), stdout=subprocess.DEVNULL, stderr=subprocess.DEVNULL)
        os.close(theirs_in)
        os.close(theirs_out)
        self.number, self.kept, self.session = 0, b"", None

    def receive(self):
        while b"\0" not in self.kept:
            got = os.read(self.into, 65536)
            if not got:
                raise EOFError("the browser has ended")
            self.kept += got
        message, self.kept = self.kept.split(b"\0", 1)
        return json.loads(message)

    def ask(self, method, **given):
        self.number += 1
        message = {"id": self.number, "method": method, "params": given}
        if self.session:
            message["sessionId"] = self.session
        os.write(self.out, json.dumps(message).encode() + b"\0")
        while True:
            answer = self.receive()
            if answer.get("id") == self.number:
                if "error" in answer:
                    raise RuntimeError(f"{method}: {answer['error']}")
                return answer["result"]

    def open(self, address):
        target = self.ask("Target.createTarget", url=address)["targetId"]
        self.session = self.ask("Target.attachToTarget", targetId=target, flatten=True)["sessionId"]
        self.ask("Emulation.setDeviceMetricsOverride", width=1400, height=1000, deviceScaleFactor=1, mobile=False)

    def value(self, script):
        """What a script gives in the page."""
        result = self.ask("Runtime.evaluate", expression=script, returnByValue=True, awaitPromise=True)
        if "exceptionDetails" in result:
            raise RuntimeError(f"{script}: {result['exceptionDetails']}")
        return result["result"].get("value")

    def text(self, place):
        return self.value(f"document.querySelector({json.dumps(place)}).innerText")

    def click(self, place):
        """Clicks the first element of a selector, in its middle."""
        x, y = self.value(f"""(() => {{
            const it = document.querySelector({json.dumps(place)});
            it.scrollIntoView({{ block: "center" }});
            const box = it.getBoundingClientRect();
            return [box.x + box.width / 2, box.y + box.height / 2];
        }})()""")
        for kind in ("mousePressed", "mouseReleased"):
            self.ask("Input.dispatchMouseEvent", type=kind, x=x, y=y, button="left", clickCount=1)
        self.value("last")

    def type(self, place, text):
        self.click(place)
        self.ask("Input.insertText", text=text)

    def picture(self):
        return base64.b64decode(self.ask("Page.captureScreenshot", format="png")["data"])

    def close(self):
        self.process.terminate()
        self.process.wait()


def article(number):
    return f"#articles button:nth-child({number})"


def sale(page):
    """A sale by clicks: two articles, one more by its code, and the payment."""
    told("the till begins", "Good morning.", page.text("#says"))
    page.click(article(1))
    told("an article is shown on the display", ["Bread           4.50", "Sum             4.50"],
         page.text("#display").split("\n"))
    page.click(article(3))
    page.type("#code", "4002")
    page.click("#scan button")
    told("the basket", ["Bread\t4.50", "Coffee\t8.99", "Milk\t1.39", "Sum\t14.88"], page.text("#basket").split("\n"))
    page.click("#pay")
    told("the sale is paid", "14.88 paid.", page.text("#says"))
    told("the receipt", [
        "KIJOLVAR", "", "Bread                       4.50", "Coffee                      8.99",
        "Milk                        1.39", "Sum                        14.88", "", "Thank you"],
        page.value("[...document.querySelectorAll('#paper .l, #paper .c, #paper .r')]"
                   ".map(it => it.innerText.trimEnd())"))
    told("bold characters", "KIJOLVARSum                        14.88",
         page.value("[...document.querySelectorAll('#paper b')].map(it => it.innerText).join('')"))
    told("a cut", 1, page.value("document.querySelectorAll('#paper .cut').length"))
    told("the drawer is open", "open", page.text("#drawer"))
    told("the day's totals", "sales\t8\t000005d000000001", page.text("#files"))
    told("the room", "8184 of 8192 bytes are free", page.text("#free"))


def devices(page):
    """Devices by hand, and what the till hears of them."""
    page.click("#close-drawer")
    told("the drawer is closed", "closed", page.text("#drawer"))
    page.click(article(4))
    page.click("#cover")
    page.click("#pay")
    told("the cover is open", "The printer's cover is open.", page.text("#says"))
    told("nothing was sold", "sales\t8\t000005d000000001", page.text("#files"))
    page.click("#cover")
    page.click("#power-printer")
    page.click("#pay")
    told("the printer is off", "The device is off.", page.text("#says"))
    page.click("#power-printer")
    page.click("#pay")
    told("the sale is paid after all", "2.49 paid.", page.text("#says"))
    told("the day's totals", "sales\t8\t000006c900000002", page.text("#files"))
    told("each device with a peripheral is on at first",
         [f"{name}: StatusUpdateEvent 2001" for name in ("drawer", "scanner", "display", "printer")],
         page.text("#events").split("\n")[:4])
    told("the last events", [
        "drawer: StatusUpdateEvent 1", "drawer: StatusUpdateEvent 0", "scanner: DataEvent 0",
        "printer: StatusUpdateEvent 11", "printer: StatusUpdateEvent 12", "printer: StatusUpdateEvent 2004",
        "printer: StatusUpdateEvent 2001", "drawer: StatusUpdateEvent 1"], page.text("#events").split("\n")[-8:])
    page.type("#line", "get drawer DrawerOpened")
    page.click("#type button")
    told("a line that was typed", "ok true\nget drawer DrawerOpened".split("\n"),
         page.text("#lines li:last-child").split("\n"))


def response(port, method, path, body=None, **headers):
    """The status and the body of the server's answer; None if it doesn't come."""
    connection = http.client.HTTPConnection("127.0.0.1", port, timeout=120)
    try:
        connection.request(method, path, body, {key.replace("_", "-"): value for key, value in headers.items()})
        answer = connection.getresponse()
        return answer.status, answer.read()
    except (OSError, http.client.HTTPException) as fault:
        return None, str(fault).encode()
    finally:
        connection.close()


def status(*words, **headers):
    return response(*words, **headers)[0]


def silent(port):
    """Connections that say nothing, or half of what they should, hold up others only for a while."""
    heads = ["POST /type HTTP/1.1", f"Host: 127.0.0.1:{port}", "Content-Type: application/json", "Content-Length: 9"]
    with socket.create_connection(("127.0.0.1", port)), socket.create_connection(("127.0.0.1", port)) as other:
        other.sendall("".join(f"{head}\r\n" for head in [*heads, ""]).encode())
        told("behind connections that wait", 200, status(port, "GET", "/state"))


def claims(port):
    """The page shows what it can of totals that another control has claimed."""
    def files_after(*lines):
        code, body = response(port, "POST", "/type", json.dumps("\n".join(lines)), Content_Type="application/json")
        return json.loads(body)["totals"]["files"] if code == 200 else body

    before = files_after("get totals State")
    told("a file of the totals", ["sales"], [file["name"] for file in before])
    told("a file that another control has claimed", [{"name": "sales", "size": 8, "bytes": "claimed"}], files_after(
        "release totals", "new other HardTotals", "open other totals", "set other DeviceEnabled true",
        "call other claimFile 1 0"))
    told("totals that another control has claimed", [], files_after("claim other 0"))
    told("after the claim", before, files_after("close other", "claim totals 0"))


def strangers(port):
    """What doesn't come from the page is refused."""
    told("another name", 403, status(port, "GET", "/state", Host="example.org"))
    told("a form of another site", 403,
         status(port, "POST", "/type", "x=1", Content_Type="application/x-www-form-urlencoded"))
    told("no text", 400, status(port, "POST", "/type", "[1]", Content_Type="application/json"))
    told("half a character", 400, status(port, "POST", "/type", '"\\ud800"', Content_Type="application/json"))
    told("nothing there", 404, status(port, "GET", "/other"))
    told("a control that was closed", 200,
         status(port, "POST", "/type", '"close display\\nclose totals"', Content_Type="application/json"))


def try_browser(program, address, picture):
    """The page in a browser, and a picture of it if a file is named for it."""
    with tempfile.TemporaryDirectory() as folder:
        page = Browser(program, folder)
        try:
            page.open(address)
            deadline = time.time() + 120
            while not page.value("document.querySelector('#says')?.innerText"):
                if time.time() > deadline:
                    raise TimeoutError("the page doesn't come")
                time.sleep(0.1)
            sale(page)
            devices(page)
            if picture:
                page.click(article(1))
                page.click(article(2))
                pathlib.Path(picture).write_bytes(page.picture())
        finally:
            page.close()


def main():
    if len(sys.argv) not in (2, 3, 4):
        sys.exit(__doc__)
    library, browser, picture = (sys.argv[1:] + ["", ""])[:3]
    words = [sys.executable, "-B", str(TOP / "abi/page/serve.py"), library, "0"]
    with subprocess.Popen(words, stdout=subprocess.PIPE, text=True) as server:
        try:
            address = server.stdout.readline().strip()
            if browser:
                try_browser(browser, address, picture)
            port = int(address.rstrip("/").rsplit(":", 1)[1])
            for trial in (silent, claims, strangers):
                trial(port)
            second = subprocess.run([*words[:-1], str(port)], capture_output=True, text=True)
            told("a port that is in use", (1, f"port {port} can't be used"),
                 (second.returncode, second.stderr.partition(" (")[0]))
        finally:
            server.terminate()
    print(f"{passed} passed, {failed} failed")
    sys.exit(failed > 0)


main()
