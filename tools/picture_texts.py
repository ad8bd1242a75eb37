#!/usr/bin/env python3
"""Whether each text of a picture can be read: in a browser, lists the texts that overlap another, that reach out of the
picture, or that a line or an arrow crosses. Its status is 1 where there are any.

    python3 tools/picture_texts.py PICTURE.svg ..

It wants `chromium` in the PATH.
"""
import html
import pathlib
import re
import subprocess
import sys
import tempfile

PAGE = """<!doctype html><meta charset="utf-8"><body style="margin:0">
%s
<pre id="found"></pre>
<script>
const svg = document.querySelector("svg");
const wide = +svg.getAttribute("width"), high = +svg.getAttribute("height");
const texts = [...svg.querySelectorAll("text")].map(text => {
    const box = text.getBBox();
    return {left: box.x, right: box.x + box.width, top: box.y, bottom: box.y + box.height, words: text.textContent};
});
const meet = (a, b) => a.left < b.right && b.left < a.right && a.top < b.bottom && b.top < a.bottom;
// What lies within 2 of a box's top or bottom is beside the letters.
const lies = (point, box) =>
    point.x > box.left && point.x < box.right && point.y > box.top + 2 && point.y < box.bottom - 2;
const found = [];
texts.forEach((a, i) => {
    if (a.left < 0 || a.top < 0 || a.right > wide || a.bottom > high) found.push(`outside: ${a.words}`);
    texts.slice(i + 1).filter(b => meet(a, b)).forEach(b => found.push(`overlap: ${a.words} | ${b.words}`));
});
let lines = 0;
for (const line of svg.querySelectorAll("path, line")) {
    if (line.closest("defs")) continue;
    lines++;
    const crossed = new Set();
    const long = line.getTotalLength();
    for (let at = 0; at <= long; at += 2) {
        const point = line.getPointAtLength(at);
        texts.filter(text => lies(point, text)).forEach(text => crossed.add(text.words));
    }
    crossed.forEach(words => found.push(`crossed by ${line.getAttribute("class")}: ${words}`));
}
found.push(`${texts.length} texts and ${lines} lines, ${found.length} found`);
document.querySelector("#found").textContent = found.join("\\n");
</script>
"""


def found_in(picture):
    """What a browser finds in a picture, a line for each, and a last line that counts them."""
    with tempfile.TemporaryDirectory() as folder:
        page = pathlib.Path(folder, "page.html")
        page.write_text(PAGE % pathlib.Path(picture).read_text())
        command = ["chromium", "--headless", "--no-sandbox", "--disable-gpu", "--virtual-time-budget=60000", "--dump-dom", page.as_uri()]
        shown = subprocess.run(command, capture_output=True, text=True, check=True).stdout
    return html.unescape(re.search(r'<pre id="found">(.+?)</pre>', shown, re.DOTALL)[1]).splitlines()


def main():
    amiss = 0
    for picture in sys.argv[1:]:
        *lines, count = found_in(picture)
        for line in lines:
            print(f"{picture}: {line}")
        print(f"{picture}: {count}")
        amiss += len(lines)
    return 1 if amiss else 0


sys.exit(main())
