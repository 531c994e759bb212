#!/usr/bin/env python3
"""Writes the page as one file: make_page.py page.html MODULE samples.json OUT. Its policy names its script and its style by their sums."""
import base64
import hashlib
import json
import re
import sys

page, module, samples, out = sys.argv[1:]
text = open(page, encoding="utf-8").read()


def sum_of(pattern):
    found = re.search(pattern, text, re.S)
    return "'sha256-" + base64.b64encode(hashlib.sha256(found.group(1).encode()).digest()).decode() + "'"


script = sum_of(r'<script type="module">(.*?)</script>')
style = sum_of(r"<style>(.*?)</style>")
policy = (f"default-src 'none'; script-src {script} 'wasm-unsafe-eval'; worker-src blob:; style-src {style}; "
          "img-src data: blob:; form-action 'none'; base-uri 'none'")
octets = open(module, "rb").read()
# A text in a script may hold no end tag of it.
lists = json.dumps(json.load(open(samples, encoding="utf-8"))).replace("</", "<\\/")
for mark, value in (("@POLICY@", policy), ("@WASM@", base64.b64encode(octets).decode()), ("@SAMPLES@", lists)):
    assert text.count(mark) == 1, mark
    text = text.replace(mark, value)
# Where 'dlms explain --html' writes a log.
assert text.count('<script type="application/octet-stream" id="log" data-name=""></script>') == 1
open(out, "w", encoding="utf-8").write(text)
