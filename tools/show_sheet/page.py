"""Puts the page together: one file with style, script and data in it."""
import base64
import hashlib
import html
import json
from pathlib import Path

FOLDER = Path(__file__).resolve().parent


def source(part):
    """The policy of a page allows exactly this text."""
    return "'sha256-" + base64.b64encode(hashlib.sha256(part.encode()).digest()).decode() + "'"


def embedded(data):
    """As JSON of ASCII without <, so that nothing in it can end the element that it stands in."""
    return json.dumps(data, separators=(",", ":")).replace("<", "\\u003c")


def page(title, data):
    style, code = (FOLDER / "page.css").read_text("utf-8"), (FOLDER / "page.js").read_text("utf-8")
    parts = {
        "TITLE": html.escape(title),
        "POLICY": f"default-src 'none'; style-src {source(style)}; script-src {source(code)}; base-uri 'none'; form-action 'none'",
        "STYLE": style,
        "DATA": embedded(data),
        "CODE": code,
    }
    # Parted first and joined then, so that no text that is put in is looked through for places.
    pieces = (FOLDER / "page.html").read_text("utf-8").split("@@")
    return "".join(parts[piece] if place % 2 else piece for place, piece in enumerate(pieces)).encode("utf-8")
