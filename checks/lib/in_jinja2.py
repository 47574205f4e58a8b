"""What upon-tool does, by Jinja2: for checks/measure. It takes the same words as far as these:

`render FILE --data DATA`, `render FILE --data DATA --each KEY --name TEMPLATE --out DIR`, and `build SRC --data DATA --layout FILE
--out DIR`; DATA is JSON or CSV, as its name ends. A file is written, and not brought to the disk.
"""
import argparse
import csv
import json
import os
import sys

import jinja2


def text_of(path):
    """Returns the text of a file."""
    with open(path, encoding="utf-8") as file:
        return file.read()


def context_of(path):
    """Returns the context of a file; a list is at `items`."""
    with open(path, encoding="utf-8", newline="") as file:
        value = list(csv.DictReader(file)) if path.endswith(".csv") else json.load(file)
    return value if isinstance(value, dict) else {"items": value}


def write(path, text):
    """Writes a file, and makes its folder."""
    os.makedirs(os.path.dirname(path), exist_ok=True)
    with open(path, "w", encoding="utf-8") as file:
        file.write(text)


def build(environment, words, context):
    """Renders each template of a folder into the layout."""
    layout = environment.from_string(text_of(words.layout))
    for at, _, names in os.walk(words.file):
        for name in names:
            path = os.path.join(at, name)
            content = environment.from_string(text_of(path)).render(context)
            page = layout.render({**context, "content": content})
            write(os.path.join(words.out, os.path.relpath(path, words.file).removesuffix(".upon")), page)


def each(environment, words, context):
    """Renders a template for each item of a list."""
    template, name = environment.from_string(text_of(words.file)), environment.from_string(words.name)
    for item in context.pop(words.each):
        values = {**context, **item, "item": item}
        write(os.path.join(words.out, name.render(values)), template.render(values))


def main():
    parser = argparse.ArgumentParser()
    for word in ("command", "file", "--data", "--layout", "--each", "--name", "--out"):
        parser.add_argument(word)
    words = parser.parse_args()
    environment, context = jinja2.Environment(keep_trailing_newline=True), context_of(words.data)
    if words.command == "build":
        build(environment, words, context)
    elif words.each:
        each(environment, words, context)
    else:
        environment.from_string(text_of(words.file)).stream(context).dump(sys.stdout)


if __name__ == "__main__":
    main()
