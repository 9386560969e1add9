"""A real Chromium, where one is installed: what it shows, and on how many sheets it prints.

Pages have no script. They are put into frames of a page that has one, and that measures them; what
it found comes back as the text of that page.
"""
from __future__ import annotations

import html
import json
import os
import re
import shutil
import signal
import subprocess
import tempfile
import unittest
from pathlib import Path
from typing import Any

NAMES = ("chromium", "chromium-browser", "google-chrome", "chrome")
CHROMIUM = next(filter(None, map(shutil.which, NAMES)), None)
NEEDS = unittest.skipUnless(CHROMIUM, "no Chromium is installed: apt-get install chromium")
FLAGS = [
    "--headless",
    "--no-sandbox",
    "--disable-gpu",
    "--disable-dev-shm-usage",
    "--disable-background-networking",
    "--disable-extensions",
    "--hide-scrollbars",
    "--no-first-run",
]
TRIES, PATIENCE = 2, 20
DARK = ["--blink-settings=preferredColorScheme=0"]
HUNG: list[str] = []
SCRIPT = """
const style = part => part.ownerDocument.defaultView.getComputedStyle(part);
const visible = part => {
  const box = part.getBoundingClientRect();
  return box.width > 0 && box.height > 0 && style(part).clipPath === 'none';
};
const name = part =>
  part.tagName + '.' + (part.getAttribute('class') || '') + ': ' + part.textContent.slice(0, 40);
const colour = words => {
  const found = words.match(/[0-9.]+/g).map(Number);
  return words.startsWith('color(') ? found.map((one, at) => at < 3 ? 255 * one : one) : found;
};
const behind = part => {
  for (let at = part; at; at = at.parentElement) {
    const found = colour(style(at).backgroundColor);
    if (found.length < 4 || found[3] > 0) return found;
  }
  return null;
};
const hasWords = part =>
  !part.closest('svg') && [...part.childNodes].some(one => one.nodeType === 3 && one.data.trim());
const texts = part => [...part.childNodes].filter(one => one.nodeType === 3);
const lefts = node => Object.fromEntries(
  [...node.data.matchAll(/[\\u0590-\\u06ff]+/g)].map(found => {
    const range = node.ownerDocument.createRange();
    range.setStart(node, found.index);
    range.setEnd(node, found.index + found[0].length);
    return [found[0], range.getBoundingClientRect().left];
  }));
const colours = part => JSON.stringify([colour(style(part).color), behind(part)]);
const measure = frame => {
  const page = frame.contentDocument, width = page.documentElement.clientWidth;
  const parts = [...page.body.querySelectorAll('*')].filter(visible);
  const scrolls = part =>
    part.scrollWidth > part.clientWidth + 1 && style(part).overflowX === 'auto';
  const words = parts.filter(hasWords);
  return {
    width,
    outside: parts.filter(part => part.getBoundingClientRect().right > width + 0.5).map(name),
    scrolls: parts.filter(scrolls).map(name),
    words: words.map(part => part.textContent),
    lefts: Object.fromEntries(
      words.flatMap(texts).map(node => [node.data, lefts(node)]).filter(
        pair => Object.keys(pair[1]).length > 1)),
    colours: [...new Set(words.map(colours))].map(JSON.parse),
  };
};
window.onload = () => {
  document.body.textContent = JSON.stringify([...document.querySelectorAll('iframe')].map(measure));
};
"""


def run(*words: str) -> str:
    """Runs Chromium, in a folder of its own; what it prints.

    On a machine with too much to do it may hang as it starts: then it is tried once more, and the
    tests that want it are skipped. Its output goes to a file, since a pipe stays open until the
    last of its processes has gone.
    """
    why = f"{CHROMIUM} didn't answer in {PATIENCE} seconds, {TRIES} times"
    for _ in range(0 if HUNG else TRIES):
        with tempfile.TemporaryDirectory(ignore_cleanup_errors=True) as room:
            with open(Path(room, "printed"), "w+", encoding="utf-8") as printed:
                process = subprocess.Popen(
                    [str(CHROMIUM), *FLAGS, f"--user-data-dir={room}/profile", *words],
                    stdout=printed,
                    stderr=subprocess.DEVNULL,
                    start_new_session=True,
                )
                try:
                    status = process.wait(PATIENCE)
                except subprocess.TimeoutExpired:
                    os.killpg(process.pid, signal.SIGKILL)
                    process.wait()
                    continue
                assert status == 0, f"Chromium ended with status {status}"
                printed.seek(0)
                return printed.read()
    HUNG.append(why)
    raise unittest.SkipTest(why)


def measured(pages: list[str], width: int, dark: bool = False) -> list[dict[str, Any]]:
    """What a window of this width shows of each page."""
    frames = "".join(
        f'<iframe style="border:0;width:{width}px;height:900px" srcdoc="{html.escape(page)}">'
        "</iframe>"
        for page in pages
    )
    whole = f'<!DOCTYPE html><meta charset="utf-8"><script>{SCRIPT}</script><body>{frames}</body>'
    with tempfile.TemporaryDirectory() as folder:
        file = Path(folder, "frames.html")
        file.write_text(whole, encoding="utf-8")
        dom = run(*(DARK if dark else []), "--dump-dom", f"file://{file}")
    body = re.search("<body>(.*)</body>", dom, re.S)
    assert body, dom[:200]
    shown: list[dict[str, Any]] = json.loads(html.unescape(body[1]))
    return shown


def sheets(page: str) -> int:
    """On how many sheets of paper a page is printed."""
    with tempfile.TemporaryDirectory() as folder:
        source, printed = Path(folder, "page.html"), Path(folder, "page.pdf")
        source.write_text(page, encoding="utf-8")
        run("--no-pdf-header-footer", f"--print-to-pdf={printed}", f"file://{source}")
        return len(re.findall(rb"/Type\s*/Page\b", printed.read_bytes()))
