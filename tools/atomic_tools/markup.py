"""Elements of a page that is well-formed as HTML and as XML."""
from __future__ import annotations

import html
import re
from typing import Optional, Union

EMPTY = frozenset("meta input br link".split())
# what no page may hold
UNSEEN = re.compile("[^\t\n\r\u0020-\ud7ff\ue000-\ufffd\U00010000-\U0010ffff]")
# what a page may hold, but nobody sees: it turns the text that stands around it, joins signs, or controls a terminal
TURNING = re.compile(
    "[\u007f-\u009f\u00ad\u061c\u180e\u200b-\u200f\u2028-\u202e\u2060-\u206f\ufeff\U000e0000-\U000e007f]"
)


def seen(words: str) -> str:
    """Words in which each sign can be seen: a box for what no page may hold, and the number of what would be
    invisible."""
    return TURNING.sub(lambda found: f"\u27e8U+{ord(found[0]):04X}\u27e9", UNSEEN.sub("\ufffd", words))


def text(words: str) -> str:
    return html.escape(seen(words), quote=False)


def value(words: object) -> str:
    return html.escape(seen(str(words))).replace("\n", "&#10;")


def tag(name: str, /, *inside: str, **attributes: Optional[Union[str, int]]) -> str:
    """An element. `class_` is its class, and `data_t` its `data-t`; an attribute that is None is left out."""
    given = {key.rstrip("_").replace("_", "-"): known for key, known in attributes.items() if known is not None}
    words = "".join(f' {key}="{value(known)}"' for key, known in given.items())
    if name in EMPTY:
        return f"<{name}{words}/>"
    return f"<{name}{words}>{''.join(inside)}</{name}>"


def samp(words: str) -> str:
    """The words of a program."""
    return tag("samp", text(words))


def script(words: str) -> str:
    return f"<script>//<![CDATA[\n{words}\n//]]></script>"


def style(words: str) -> str:
    return f"<style>/*<![CDATA[*/\n{words}\n/*]]>*/</style>"


def json_inside(words: str) -> str:
    """JSON that may stand in a page."""
    return words.replace("<", "\\u003c").replace("]]>", "]]\\u003e").replace("&", "\\u0026")
