"""Writing HTML and SVG. Every text is escaped on its way into a page, unless a function of this file made it."""

import html
import json


class Markup(str):
    """A text that is HTML already."""


def escaped(child):
    return child if isinstance(child, Markup) else Markup(html.escape(str(child), quote=True))


def joined(*children):
    """The children one after the other, escaped where they are plain text; lists are gone into and None is nothing."""
    parts = []
    for child in children:
        if isinstance(child, (list, tuple)):
            parts.append(joined(*child))
        elif child is not None:
            parts.append(escaped(child))
    return Markup("".join(parts))


def opening(name, attributes):
    """`class_` is the attribute class, `aria_label` is aria-label; an attribute that is None is left out, one that is True has no value."""
    words = [name]
    for key, value in attributes.items():
        key = key.rstrip("_").replace("_", "-")
        if value is True:
            words.append(key)
        elif value is not None:
            words.append(f'{key}="{escaped(value)}"')
    return " ".join(words)


def tag(name, /, *children, **attributes):
    """An element with its children."""
    return Markup(f"<{opening(name, attributes)}>{joined(*children)}</{name}>")


def empty_tag(name, /, **attributes):
    """An element that has no end tag, as <meta> and <input>."""
    return Markup(f"<{opening(name, attributes)}>")


def prose(words):
    """Words with what stands between backquotes as code."""
    return joined(*(tag("code", part) if number % 2 else part for number, part in enumerate(words.split("`"))))


def data_script(identity, value):
    """A value for the page's script, in an element that no browser runs; nothing in it can end the element."""
    text = json.dumps(value, ensure_ascii=True, separators=(",", ":"))
    for sign in "<>&":
        text = text.replace(sign, f"\\u{ord(sign):04x}")
    return Markup(f'<script type="application/json" id="{escaped(identity)}">{text}</script>')
