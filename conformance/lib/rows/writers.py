"""Writers that take one byte a call and fail at a call: what they have received, and what is reported."""
from . import row

TEMPLATES = [
    ("ab{{ 12 }}cd", None, {}), ("{{ a }}{{ b }}", {"a": "xy"}, {}), ("é日", None, {}),
    ("{% for x in [1, 2] %}{{ x }},{% endfor %}", None, {}), ('a{% include "t" %}b', None, {"templates": {"t": "T{{ 1 }}"}}),
    ("{{ a | stop }}", {"a": 1}, {"callables": ["stop"]}),
    ("{{ xs | fmt }}", {"xs": []}, {"callables": ["fmt"]}), ("x{{ \"\" }}y", None, {}), ("{% if 1 %}ab{% endif %}", None, {}),
    ("{{ zz }}", None, {}), ("ab{{ zz }}", None, {}), ("{{ 1 }}{{ @ }}", None, {}),
]
# What each template writes up to its end or its fault, in ASCII.
WRITTEN = ["ab12cd", "xy", None, "1,2,", "aT1b", "before", "<", "xy", "ab", "", "ab", ""]


def rows():
    """Each template with a writer that fails at each call that it gets, and at one that it does not get."""
    found = []
    for (source, context, more), text in zip(TEMPLATES, WRITTEN):
        size = len(text) if text is not None else len(source.encode())
        for call in range(1, size + 2):
            wanted = None
            if text is not None and call <= size:
                error = {"kind": "io error", "reason": None, "template": None, "span": None, "picture": "io error"}
                wanted = {"written": text[:call - 1], "error": error}
            elif text is None and call <= size:
                continue
            found.append(row(source, context, wanted, writer={"takes": 1, "fails_at": call}, **more))
    return found
