#!/usr/bin/env python3
"""Tries crates/dlms_web/out/dlms-explain.html in headless Chromium, beside the program that DLMS names: web_page.py sizes, or all MB.

texts     the inputs of crates/dlms/cases and stdin, in every form, byte for byte what 'dlms explain' prints; 300 damaged ones too
apdus     APDUs alone, as the lines below the same APDU in a log
keys      ciphered messages, as 'explain --keys' with the same station
stations  .. with the same file of several stations, chosen, opened or typed; refused files are named by line, and no key is shown
reports   'explain --html': the log as 'explain --hex' prints it, its name, the same policy, nothing leaves; one of 5 MB
curves    the SVG of readings, as 'dlms plot --svg'
leaks     fetch, an image, a beacon, a WebSocket, a form, link prefetch and others, in the page and in its worker: the server hears nothing
links     a link carries the text in its fragment, and the server sees none of it
filters   search, service, object, errors; what is left
controls  each has a name, all are reached by the Tab key
plain     a browser without 64-bit memory gets a message
large     a log of MB: the module's memory does not grow with it; half of the program's speed, each the best of four runs by turns
pictures  screenshots in light, dark and at 390 points"""
import base64
import glob
import http.server
import json
import os
import pathlib
import random
import re
import subprocess
import sys
import tempfile
import threading
import time
import zlib

sys.dont_write_bytecode = True
HERE = pathlib.Path(__file__).resolve().parent
sys.path.insert(0, str(HERE))
from dlms_browser import Browser  # noqa: E402

CRATES = HERE.parent / "crates"
OUT = CRATES / "dlms_web/out"
PAGE = OUT / "dlms-explain.html"
MODULE = OUT / "dlms_web.wasm"
OWN = CRATES / "dlms_web/page/page.html"
DLMS = os.environ.get("DLMS", str(CRATES / "dlms/out/dlms"))
FORMS = {0: [], 1: ["--short"], 2: ["--hex"], 3: ["--short", "--hex"], 4: ["--json"], 6: ["--json", "--hex"], 8: ["--raw"], 10: ["--raw", "--hex"]}
wrong = []


def check(holds, words):
    if not holds:
        wrong.append(words)
        print("WRONG:", words)


def sizes():
    """The module imports nothing, and the page's own part is small."""
    module = MODULE.read_bytes()
    at, imports = 8, 0
    while at < len(module):
        kind, at = module[at], at + 1
        size, shift = 0, 0
        while True:
            octet = module[at]
            size, shift, at = size | (octet & 127) << shift, shift + 7, at + 1
            if not octet & 128:
                break
        imports += kind == 2
        at += size
    check(imports == 0, "the module has imports")
    check(OWN.stat().st_size < 40 << 10, "the page's own part is 40 KB or more")
    print(f"module {len(module)} octets, the page's own part {OWN.stat().st_size}, the page {PAGE.stat().st_size}; no import")


def native(words, file):
    done = subprocess.run([DLMS, *words, file], capture_output=True)
    return done.returncode, done.stdout


BOTH = """globalThis.both = async (all) => {
  const told = [];
  for (const [as, flags, given] of all) {
    const it = await explained(Uint8Array.from(atob(given), c => c.charCodeAt(0)), as, flags);
    let text = '';
    for (let at = 0; at < it.text.length; at += 32768) text += String.fromCharCode(...it.text.subarray(at, at + 32768));
    told.push([it.code, btoa(text)]);
  }
  return told;
}; 0"""


def answers(browser, given):
    """What the page makes of these: how, flags, octets."""
    for at in range(0, len(given), 100):
        some = [[how, flags, base64.b64encode(octets).decode()] for how, flags, octets in given[at:at + 100]]
        for code, text in browser.run(f"both({json.dumps(some)})"):
            yield code, base64.b64decode(text)


def texts(browser):
    files = sorted(glob.glob(str(CRATES / "dlms/cases/*.in")) + [str(CRATES / "dlms/stdin")])
    inputs = [(name, pathlib.Path(name).read_bytes()) for name in files]
    chance = random.Random(7)
    with tempfile.TemporaryDirectory() as folder:
        for number in range(300):
            name, octets = chance.choice(inputs[:len(files)])
            octets = bytearray(octets[:40000] or b"\x7e")
            for _ in range(chance.randrange(1, 12)):
                place = chance.randrange(len(octets))
                match chance.randrange(4):
                    case 0: octets[place] = chance.randrange(256)
                    case 1: del octets[place:place + chance.randrange(1, 40)]
                    case 2: octets[place:place] = octets[place:place + chance.randrange(1, 40)]
                    case 3: octets[place:place] = chance.randbytes(chance.randrange(1, 20))
                octets = octets or bytearray(b"\n")
            name = f"{folder}/{number}"
            pathlib.Path(name).write_bytes(octets)
            inputs.append((name, bytes(octets)))
        cases = [(name, flags, octets) for name, octets in inputs for flags in FORMS]
        same = total = 0
        for (name, flags, _), (code, text) in zip(cases, answers(browser, [("log", flags, octets) for _, flags, octets in cases])):
            status, expected = native(["explain", *FORMS[flags]], name)
            total += len(text)
            if (code, text) == (0, expected) and status == 0:
                same += 1
            else:
                check(False, f"{os.path.basename(name)} {FORMS[flags]}: code {code}, status {status}, {len(text)} and {len(expected)} octets")
    print(f"texts: {same} of {len(cases)} as the program's, {len(files)} files and 300 damaged ones, {total} octets")


def apdus(browser):
    known = ["c001c100030100010800ff0200", "c401c100060000002a", "c401c10103", "0e010302", "601da109060760857405080101be10040e01000000065f1f0400001e5d04b0",
             "cb20300123456789d0", "c701c100", "", "00", "c001", "0f00000001000203020112000509060100010800ff0f02120000"]
    same = 0
    with tempfile.TemporaryDirectory() as folder:
        given = [(side, bytes.fromhex(digits)) for digits in known for side in (1, 2, 0)]
        for (side, octets), (code, text) in zip(given, answers(browser, [(str(side), 0, octets) for side, octets in given])):
            check(code == 0, f"APDU {octets.hex()}: code {code}")
            if side and octets[:1] in (b"\xc0", b"\xc4", b"\x60", b"\x0e"):
                pathlib.Path(f"{folder}/log").write_text(f"{'><'[side - 1]} {octets.hex()}\n")
                head, _, below = native(["explain"], f"{folder}/log")[1].partition(b"\n")
                if head.startswith((b"> APDU", b"< APDU")):
                    check(text == below, f"APDU {octets.hex()} of side {side}: {text} and {below}")
                    same += 1
    code = browser.run("explained(new Uint8Array(1), '3', 0).then(it => it.code)")
    check(code == 5, "a side of no end is refused")
    print(f"apdus: {len(known)} from three sides, {same} compared")


# Messages of the Green Book and others: of suite 0 under each policy, with and without a title, of suite 1, with another service's tag, and
# under a dedicated key.
CIPHERED = """
C81E1001234567C0010000080000010000FF020006725D910F9221D263877516
C8122001234567411312FF935A47566827C467BC
C81E3001234567411312FF935A47566827C467BC7D825C3BE4A77C3FCC056B6B
21303001234567801302FF8A7874133D414CED25B42534D28DB0047720606B175BD52211BE6841DB204D39EE6FDB8E356855
DB084D4D4D0000BC614E122001234567411312FF935A47566827C467BC
C81E3101234567411312FF935A47566827C467BC7D825C3BE4A77C3FCC056B6B
C91E3001234567411312FF935A47566827C467BC7D825C3BE4A77C3FCC056B6B
D01E300000000012F6ECBCB15913FB4DB62F688A1A11C0941816415E1CFF1CA3
C81E3001234567411312FF935A47566827C467BC7D825C3BE4A77C3FCC056B6A
"""
TITLE, ENCRYPTION, AUTHENTICATION = "4D4D4D0000BC614E", "000102030405060708090A0B0C0D0E0F", "D0D1D2D3D4D5D6D7D8D9DADBDCDDDEDF"


def give(browser, title, encryption, authentication):
    for name, value in (("title", title), ("encryption", encryption), ("authentication", authentication)):
        browser.run(f"document.getElementById('{name}').value = '{value}'; 0")


def keys(browser):
    same = 0
    with tempfile.TemporaryDirectory() as folder:
        log, file = pathlib.Path(folder, "log"), pathlib.Path(folder, "keys.toml")
        log.write_text(CIPHERED)
        for title, encryption, authentication in ((TITLE, ENCRYPTION, AUTHENTICATION), (TITLE, ENCRYPTION, ""), ("4D4D4D0000000001", ENCRYPTION, AUTHENTICATION),
                                                  (TITLE, AUTHENTICATION, AUTHENTICATION), ("4D4D4D0000000001", ENCRYPTION, "")):
            file.write_text(f'[[station]]\ntitle = "{title}"\nencryption-key = "{encryption}"\n' + (f'authentication-key = "{authentication}"\n' if authentication else ""))
            file.chmod(0o600)
            give(browser, title, encryption, authentication)
            for (flags, words), (code, text) in zip(FORMS.items(), answers(browser, [("log", flags, log.read_bytes()) for flags in FORMS])):
                status, expected = native(["explain", "--keys", str(file), *words], str(log))
                check((code, status, text) == (0, 0, expected), f"keys {title} {encryption} {authentication} {words}: code {code}, status {status}")
                check(encryption.lower().encode() not in text.lower(), "a key is shown")
                same += text == expected
    give(browser, TITLE, "00", "")
    browser.run("document.getElementById('go').click()")
    check("16 hexadecimal" in browser.run("document.getElementById('status').textContent"), "keys of a wrong length are refused")
    give(browser, "", "", "")
    print(f"keys: {same} texts as the program's")


STATIONS = [("4D4D4D0000000001", AUTHENTICATION, ENCRYPTION), (TITLE, ENCRYPTION, AUTHENTICATION), ("4D4D4D0000000002", AUTHENTICATION, "")]
KEYED = "document.documentElement.dataset.keys"


def station(title, encryption, authentication):
    return f'[[station]] # a meter\r\n  title = "{title}"\n\nencryption-key=\'{encryption}\'\n' + (f'authentication-key = "{authentication}" # its tag\n' if authentication else "")


def choose_keys(browser, selector, file):
    """Chooses a file of keys, and returns what the page says of it."""
    browser.run(f"delete {KEYED}; 0")
    browser.choose(selector, file)
    browser.run("new Promise(done => { const look = () => %s === undefined ? setTimeout(look, 5) : done(0); look(); })" % KEYED)
    return browser.run("document.getElementById('refused').textContent")


# What the page does not read of a file of keys: the text, and the line.
REFUSED_KEYS = [
    ("[[station]]\ntitle = \"4D4D4D0000000001\"\n", "line 1: this station has no encryption-key"),
    ("# nothing\n", "line 1: there is no [[station]] table"),
    ("title = \"4D4D4D0000000001\"\n", "line 1: a [[station]] table is expected before it"),
    ("[[station]]\n\ntitle = \"4D4D\"\n", "line 3: title is expected as 16 hexadecimal digits"),
    ("[[station]]\nencryption-key = \"D0D1D2D3D4D5D6D7D8D9DADBDCDDDED\"\n", "line 2: encryption-key is expected as 32 hexadecimal digits"),
    ("[[station]]\ntitle = \"4D4D4D0000000001\"\ntitle = \"4D4D4D0000000001\"\n", "line 3: title is given twice"),
    ("[[station]]\npolicy = \"encrypted\"\n", "line 2: title, encryption-key or authentication-key is expected"),
    ("[[station]]\nD0D1D2D3D4D5D6D7D8D9DADBDCDDDEDF\n", "line 2: a [[station]] table, or a name and a text in quotes, is expected"),
    ("[station]\n", "line 1: a [[station]] table, or a name and a text in quotes, is expected"),
    ("#" * 65537, "It has more than 65536 bytes."),
    ("".join(station(f"{n:016X}", ENCRYPTION, "") for n in range(257)), "There are more than 256 stations."),
]


def stations(browser):
    same = 0
    with tempfile.TemporaryDirectory() as folder:
        log, file = pathlib.Path(folder, "log"), pathlib.Path(folder, "keys.toml")
        log.write_text(CIPHERED)

        def compare(how):
            found = 0
            for (flags, words), (code, text) in zip(FORMS.items(), answers(browser, [("log", flags, log.read_bytes()) for flags in FORMS])):
                status, expected = native(["explain", "--keys", str(file), *words], str(log))
                check((code, status, text) == (0, 0, expected), f"stations {how} {words}: code {code}, status {status}")
                check(not any(it.lower().encode() in text.lower() for it in (ENCRYPTION, AUTHENTICATION)), f"stations {how}: a key is shown")
                found += text == expected
            return found

        file.write_bytes("".join(station(*it) for it in STATIONS).encode())
        file.chmod(0o600)
        for selector in ("#keyfile", "#file"):
            check(choose_keys(browser, selector, file) == "" and browser.run(KEYED) == "3", f"three stations by {selector}")
            same += compare(selector)
            browser.run("document.getElementById('forget').click(); 0")
        for it in STATIONS:
            give(browser, *it)
            browser.run("document.getElementById('add').click(); 0")
        shown = browser.run("document.getElementById('stations').textContent")
        check(shown.startswith("3 stations: 4D4D4D0000000001, 4D4D4D0000BC614E"), f"the stations are {shown}")
        same += compare("typed")
        for text, why in REFUSED_KEYS:
            file.write_bytes(text.encode())
            refused = choose_keys(browser, "#keyfile", file)
            check(refused == f"keys.toml: {why}", f"keys refused as {refused}, not {why}")
            check(browser.run(KEYED) == "3", "a refused file changes the keys")
            check(native(["explain", "--keys", str(file)], str(log))[0] == 1, f"the program takes keys that the page refuses: {why}")
        check(not any(it in browser.run("document.body.innerText + document.body.innerHTML + location.href") for it in (ENCRYPTION, AUTHENTICATION)), "a key is in the page")
        browser.run("document.getElementById('forget').click(); 0")
        file.write_text("".join(station(f"{n:016X}", ENCRYPTION, "") for n in range(256)))
        check(choose_keys(browser, "#keyfile", file) == "" and browser.run(KEYED) == "256", "256 stations")
        same += compare("of 256")
        give(browser, "4D4D4D0000BC614E", ENCRYPTION, AUTHENTICATION)
        browser.run("document.getElementById('go').click(); 0")
        check("more than 256" in browser.run("document.getElementById('status').textContent"), "257 stations are refused")
        browser.run("document.getElementById('forget').click(); 0")
        check(browser.run("document.getElementById('stations').textContent + document.getElementById('encryption').value") == "", "keys are left")
    print(f"stations: {same} texts as the program's, {len(REFUSED_KEYS)} files refused")


def reports(browser):
    """Logs in copies of the page."""
    cases = CRATES / "dlms/cases"
    line = (cases / "explain-each-kind-of-frame.in").read_bytes()
    logs = {"line.log": line, 'a "b" <i>ü.log': line[:4001], "tcp.pcap": (cases / "explain-a-capture-of-tcp.in").read_bytes(), "none.log": b"",
            "large.log": line * (5_000_000 // len(line) + 1)}
    with tempfile.TemporaryDirectory() as folder:
        for name, octets in logs.items():
            log, report = pathlib.Path(folder, name), pathlib.Path(folder, name + ".html")
            log.write_bytes(octets)
            made = subprocess.run([DLMS, "explain", str(log), "--page", str(PAGE), "--html", str(report)], capture_output=True, text=True)
            check((made.returncode, made.stdout) == (0, "") and made.stderr == f"made {report}: {len(octets)} octets of {log}\n", f"{name}: {made}")
            browser.events.clear()
            browser.go(report.as_uri())
            told = browser.done()
            kept = "".join(it for it in name if it.isascii() and it.isalnum() or it in "._-")
            check(browser.run("document.title").startswith(kept + ": ") and browser.run("document.getElementById('name').textContent").startswith(kept + ","), f"{name} is not named")
            text = base64.b64decode(browser.run("shownText()"))
            check((told["code"], text) == (0, native(["explain", "--hex"], str(log))[1]), f"{name}: code {told['code']}, {len(text)} octets of text")
            asked = [it for it in browser.urls() if not it.startswith(("blob:", "data:", "about:", report.as_uri()))]
            check(asked == [], f"{name}: the page asks for {asked}")
            if name == "line.log":
                server = Server()
                told = browser.run(LEAKS % json.dumps(server.address + "leak-"))
                check(server.asked == [] and not any("REACHED" in it or it == "1" for it in told.values()), f"a report leaks: {server.asked} {told}")
                server.server.shutdown()
        policies = {re.search(r'Security-Policy" content="([^"]*)"', it.read_text()).group(1) for it in (PAGE, *pathlib.Path(folder).glob("*.html"))}
        check(len(policies) == 1, "a report has another policy")
    print(f"reports: {len(logs)} logs, nothing asked for")


def curves(browser):
    samples = json.loads((CRATES / "dlms_web/page/samples.json").read_text())
    given = [next(text for _, how, text in samples if how == "plot").encode()]
    lines = given[0].splitlines(True)
    given += [b"".join(lines[:9] + lines[14:]), b"".join(lines * 1), lines[0], b"".join(lines[:2])]
    with tempfile.TemporaryDirectory() as folder:
        for octets, (code, text) in zip(given, answers(browser, [("plot", 0, octets) for octets in given])):
            pathlib.Path(f"{folder}/readings.csv").write_bytes(octets)
            status, expected = native(["plot", "--svg"], f"{folder}/readings.csv")
            check((code, status, text) == (0, 0, expected), f"a curve of {len(octets)} octets: code {code}, status {status}")
    for octets in (b"no readings\n", b"\xff\xfe"):
        (code, text), = answers(browser, [("plot", 0, octets)])
        check((code, text) == (4, b""), f"readings {octets}: code {code}")
    print(f"curves: {len(given)} as the program's")


class Server:
    """Serves the page, and keeps what is asked of it."""

    def __init__(self):
        asked = self.asked = []

        class Handler(http.server.BaseHTTPRequestHandler):
            def do_GET(self):
                asked.append(self.path)
                body = PAGE.read_bytes() if self.path == "/" else b"x"
                self.send_response(200)
                self.send_header("Content-Type", "text/html")
                self.send_header("Content-Length", str(len(body)))
                self.end_headers()
                self.wfile.write(body)

            do_POST = do_HEAD = do_OPTIONS = do_GET

            def log_message(self, *_):
                pass

        self.server = http.server.ThreadingHTTPServer(("127.0.0.1", 0), Handler)
        self.address = f"http://127.0.0.1:{self.server.server_port}/"
        threading.Thread(target=self.server.serve_forever, daemon=True).start()


LEAKS = """(async () => {
  const at = %s, told = {}, wait = ms => new Promise(done => setTimeout(done, ms)), head = document.head;
  const tried = async (name, it) => { try { told[name] = String(await it()); } catch (fault) { told[name] = fault.name; } };
  const put = (tag, fields) => { const it = document.createElement(tag); Object.assign(it, fields); head.append(it); return it; };
  const loads = (tag, fields) => new Promise(done => { const it = put(tag, fields); it.onload = () => done('REACHED'); it.onerror = () => done('refused'); setTimeout(() => done('nothing'), 300); });
  await tried('fetch', () => fetch(at + 'fetch').then(() => 'REACHED'));
  await tried('fetch without cors', () => fetch(at + 'fetch2', { mode: 'no-cors', method: 'POST', body: 'x' }).then(() => 'REACHED'));
  await tried('XMLHttpRequest', () => new Promise(done => { const it = new XMLHttpRequest(); it.onload = () => done('REACHED'); it.onerror = () => done('refused'); it.open('GET', at + 'xhr'); it.send(); }));
  await tried('image', () => loads('img', { src: at + 'image' }));
  await tried('script', () => loads('script', { src: at + 'script' }));
  await tried('style sheet', () => loads('link', { rel: 'stylesheet', href: at + 'style' }));
  await tried('frame', () => loads('iframe', { src: at + 'frame' }).then(() => 'an error page'));
  await tried('object', () => loads('object', { data: at + 'object' }));
  await tried('video', () => loads('video', { src: at + 'video' }));
  for (const rel of ['prefetch', 'preload', 'modulepreload', 'icon', 'manifest', 'prerender', 'preconnect'])
    await tried(rel, () => loads('link', { rel, href: at + rel, as: 'image' }));
  await tried('beacon', () => navigator.sendBeacon(at + 'beacon', 'x'));
  await tried('WebSocket', () => new Promise(done => { const it = new WebSocket(at.replace('http', 'ws') + 'socket'); it.onopen = () => done('REACHED'); it.onerror = () => done('refused'); }));
  await tried('EventSource', () => new Promise(done => { const it = new EventSource(at + 'events'); it.onopen = () => done('REACHED'); it.onerror = () => done('refused'); }));
  await tried('import', () => import(at + 'import').then(() => 'REACHED'));
  await tried('form', () => { const it = put('form', { action: at + 'form', method: 'post' }); it.submit(); return wait(300).then(() => 'sent nothing'); });
  await tried('worker', () => new Promise(done => { try { const it = new Worker(at + 'worker'); it.onerror = () => done('refused'); setTimeout(() => done('nothing'), 300); } catch (fault) { done(fault.name); } }));
  await tried('a worker of its own', () => new Promise(done => {
    const it = new Worker(URL.createObjectURL(new Blob([`Promise.allSettled([fetch('${at}inner'), fetch('${at}inner2', { mode: 'no-cors' }), import('${at}inner3')]).then(it => postMessage(it.map(one => one.status).join()))`])));
    it.onmessage = ({ data }) => done(data); it.onerror = () => done('refused'); }));
  await tried('inline script', () => { put('script', { textContent: "document.documentElement.dataset.injected = '1'" }); return document.documentElement.dataset.injected ?? 'refused'; });
  await tried('eval', () => eval('1') && 'REACHED');
  await wait(500);
  return told;
})()"""


def leaks(browser):
    for page in ("served", "file"):
        server = Server()
        browser.go(server.address if page == "served" else PAGE.as_uri())
        browser.run("explained(new TextEncoder().encode('7ea0070321930f017e'), 'log', 0)")
        told = browser.run(LEAKS % json.dumps(server.address + "leak-"))
        check(not any("REACHED" in it or it == "1" for it in told.values()), f"{page}: {told}")
        heard = [it for it in server.asked if it != "/"]
        check(heard == [], f"{page}: the server heard {heard}")
        check(len(server.asked) == (page == "served"), f"{page}: the server was asked {server.asked}")
        print(f"leaks, page {page}: {len(told)} ways tried, the server heard {len(heard)}")
        server.server.shutdown()


def links(browser):
    server = Server()
    browser.go(server.address)
    text = "> 7ea0070321930f017e\n# a line: ä <b> &\n"
    browser.run(f"document.getElementById('input').value = {json.dumps(text)}; document.getElementById('go').click()")
    browser.done()
    check(browser.run("location.hash") == "", "the address carries text before a link is asked for")
    give(browser, TITLE, ENCRYPTION, AUTHENTICATION)
    browser.run("document.getElementById('link').click(); new Promise(done => setTimeout(done, 300))")
    address = browser.run("location.href")
    check(address.startswith(server.address + "#as=log&flags=2&text="), f"the link is {address[:80]}")
    carried = zlib.decompress(base64.urlsafe_b64decode(address.partition("&text=")[2] + "=="), -15)
    check(carried == text.encode() and not any(it in address for it in (TITLE, ENCRYPTION, AUTHENTICATION)), f"the link carries {carried}")
    browser.go(address)
    browser.done()
    check(browser.run("document.getElementById('encryption').value") == "", "keys outlast the page")
    check(browser.run("document.getElementById('input').value") == text, "the link does not bring the text back")
    check(browser.run("document.querySelectorAll('#items b').length") == 0, "a text becomes markup")
    browser.go(server.address + "#text=%%%")
    browser.run("new Promise(done => setTimeout(done, 200))")
    check("no text" in browser.run("document.getElementById('status').textContent"), "a damaged link is not reported")
    check(set(server.asked) == {"/"}, f"the server was asked {server.asked}")
    check(all("#" not in it for it in server.asked), "a fragment was sent")
    print(f"links: the server saw {sorted(set(server.asked))}")
    server.server.shutdown()


def filters(browser):
    browser.go(PAGE.as_uri() + "#sample=0")
    browser.done()
    count = "document.querySelectorAll('#items > li').length"

    def left(script):
        browser.run("delete document.documentElement.dataset.filtered; 0")
        browser.run(script)
        return int(browser.run("new Promise(done => { const look = () => { const it = document.documentElement.dataset.filtered; it !== undefined ? done(it) : setTimeout(look, 5); }; look(); })"))

    def pick(name, words):
        return ("{ const s = document.getElementById('%s'); s.value = [...s.options].find(it => it.text.startsWith('%s')).value; s.onchange(); }" % (name, words))

    with tempfile.NamedTemporaryFile(suffix=".log") as log:
        log.write(browser.run("document.getElementById('input').value").encode())
        log.flush()
        heads = [it for it in native(["explain", "--hex"], log.name)[1].decode().split("\n") if it]
    items = []
    for line in heads:
        if line.startswith("  ") and items:
            items[-1].append(line)
        else:
            items.append([line])
    def service_of(item):
        return next((line[2:] for line in item[1:] if line[2] != " " and "not taken" not in line), "")

    service = [it for it in items if service_of(it).startswith("get-request-normal")]
    check(left(pick("service", "get-request-normal")) == len(service) > 0, "filter by service")
    of = [it for it in service if any("1.0.1.8.0.255" in line for line in it)]
    check(left(pick("object", "1.0.1.8.0.255")) == len(of) > 0, "filter by service and object")
    left(pick("service", "every"))
    left(pick("object", "every"))
    found = [it for it in items if any("exception" in line.lower() for line in it)]
    search = "{ const s = document.getElementById('search'); s.value = '%s'; s.oninput(); }"
    check(left(search % "EXCEPTION") == len(found) > 0, "search")
    check(left(search % "") == len(items), "no filter")
    errors = left("{ const e = document.getElementById('errors'); e.checked = true; e.onchange(); }")
    check(0 < errors < len(items), "errors only")
    left("{ const e = document.getElementById('errors'); e.checked = false; e.onchange(); }")
    browser.run("document.getElementById('fold').click()")
    check(browser.run("document.querySelectorAll('#items details[open]').length") == 0, "collapse all")
    check(browser.run(count) == min(200, len(items)), "the first 200 entries are shown")
    print(f"filters: {len(items)} entries, {len(service)} of a service, {len(of)} of an object, {len(found)} found, {errors} with an error")


def controls(browser):
    browser.go(PAGE.as_uri() + "#sample=0")
    browser.done()
    roles = ("button", "textbox", "searchbox", "combobox", "checkbox", "radio")
    named = 0
    for node in browser.call("Accessibility.getFullAXTree")["nodes"]:
        role = node.get("role", {}).get("value")
        if role in roles and not node.get("ignored"):
            named += 1
            check(node.get("name", {}).get("value"), f"a {role} without a name")
    reached = set()
    browser.run("document.activeElement.blur(); document.body.focus(); 0")
    for _ in range(60):
        for kind in ("keyDown", "keyUp"):
            browser.call("Input.dispatchKeyEvent", type=kind, key="Tab", code="Tab", windowsVirtualKeyCode=9)
        reached.add(browser.run("document.activeElement.id || document.activeElement.tagName"))
    check({"input", "go", "file", "kind", "hex", "raw", "search", "service", "object", "errors", "fold", "copy", "save", "link", "SUMMARY"} <= reached, f"by Tab: {sorted(reached)}")
    print(f"controls: {named} with a name, {len(reached)} kinds reached by Tab")


def plain():
    browser = Browser()
    browser.call("Page.addScriptToEvaluateOnNewDocument", source="WebAssembly.validate = () => false;")
    browser.go(PAGE.as_uri())
    check(browser.run("!document.getElementById('cannot').hidden && document.getElementById('go').disabled"), "no message without a 64-bit memory")
    browser.close()
    print("plain: a message")


def large(browser, megabytes):
    line = (CRATES / "dlms/cases/explain-each-kind-of-frame.in").read_bytes()
    with tempfile.TemporaryDirectory() as folder:
        memory = []
        for size in (1, megabytes):
            log = pathlib.Path(folder, "large.log")
            with open(log, "wb") as it:
                for _ in range(size * 1_000_000 // len(line) + 1):
                    it.write(line)
            megabytes_read, program, page = log.stat().st_size / 1e6, 0, 0
            for _ in range(4):
                begun = time.time()
                with open(os.devnull, "wb") as nothing:
                    subprocess.run([DLMS, "explain", str(log)], stdout=nothing, check=True)
                program = max(program, megabytes_read / (time.time() - begun))
                browser.go(PAGE.as_uri())
                browser.run("document.getElementById('hex').checked = false; 0")
                told = browser.open_file(log)
                page = max(page, megabytes_read * 1e3 / told["ms"])
                memory.append(told["memory"])
                check(told["code"] == 0, f"a log of {size} MB: code {told['code']}")
            print(f"large: {size} MB at {page:.1f} MB/s in the worker, {megabytes_read * 1e3 / told['whole']:.1f} MB/s until it is shown, the program {program:.1f}; "
                  f"the module's memory {told['memory'] / 1e6:.1f} MB, {told['frames']} frames")
        check(min(memory) == max(memory), f"the module's memory grows with the log: {memory}")
        check(page * 2 >= program, f"the page has {page:.1f} MB/s, the program {program:.1f}")


def pictures(browser):
    for name, sample, width, height, dark in (("light", 0, 1100, 1000, False), ("dark", 0, 1100, 1000, True), ("phone", 0, 390, 1400, False), ("curve", 4, 1100, 1000, False)):
        browser.call("Emulation.setDeviceMetricsOverride", width=width, height=height, deviceScaleFactor=1, mobile=False)
        browser.go(PAGE.as_uri() + f"#sample={sample}")
        browser.done()
        browser.run("new Promise(done => setTimeout(done, 200))")
        check(browser.run("document.documentElement.scrollWidth <= innerWidth"), f"{name}: wider than the window")
        browser.picture(OUT / f"{name}.png", width, height, dark)
    print(f"pictures: {OUT}")


def main():
    sizes()
    if sys.argv[1] == "all":
        browser = Browser()
        browser.go(PAGE.as_uri())
        browser.run(BOTH)
        for part in (texts, apdus, keys, stations, curves):
            part(browser)
        for part in (leaks, reports, links, filters, controls, pictures):
            part(browser)
        plain()
        large(browser, int(sys.argv[2]))
        check(browser.faults() == [], f"exceptions: {browser.faults()[:2]}")
        browser.close()
    print("web: passed" if not wrong else f"web: {len(wrong)} wrong")
    sys.exit(bool(wrong))


main()
