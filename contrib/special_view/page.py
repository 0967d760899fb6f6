"""Puts a page together: its style, its script and its data, in one file."""

import html
import json
from pathlib import Path

HERE = Path(__file__).resolve().parent


def script_data(data):
    """Data as the text of a script element: no `<` in it ends the element."""
    text = json.dumps(data, ensure_ascii=False, separators=(",", ":"))
    text = text.replace("<", "\\u003c").replace("\u2028", "\\u2028").replace("\u2029", "\\u2029")
    return text.encode("utf-8", "backslashreplace").decode()


def part(name):
    return (HERE / name).read_text()


def of_data(title, data, above=""):
    """The page over the data of a model."""
    body = part("page.html").replace("@TITLE@", html.escape(title)).replace("@STYLE@", part("page.css")).replace("@ABOVE@", above)
    head, tail = body.split("@DATA@")
    middle, end = tail.split("@SCRIPT@")
    return (head + script_data(data) + middle + part("draw.js") + part("page.js") + end).encode("utf-8", "replace")


def of_run(name, model, audit):
    """The page of a journal."""
    legal, wrong, sentence = audit
    data = {"name": name, "legal": legal, "wrong": wrong, "audit": sentence, "counts": model.counts(),
            "unreadable": model.unreadable, **model.as_data()}
    return of_data(f"{name} - journal of a run", data)
