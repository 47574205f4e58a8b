"""The search's index: the headings of all pages, and in which sections each word stands."""
import html.parser
import json
import re

WORD = re.compile(r"[^\W\d_][\w-]*|\d+(?:\.\d+)+|_\w+")
HEADINGS = ("h1", "h2", "h3", "h4", "dt")
# What is no text of a page.
SILENT = ("script", "style", "svg", "nav", "figcaption", "title", "header", "footer")


class Sections(html.parser.HTMLParser):
    """The sections of a page: each heading that can be linked to, with the words up to the next one."""

    def __init__(self):
        super().__init__()
        self.found = [["", "", set()]]
        self.silent = 0
        self.heading = None

    def handle_starttag(self, tag, attrs):
        """Begins a section at a heading that can be linked to."""
        attrs = dict(attrs)
        if tag in SILENT:
            self.silent += 1
        elif tag in HEADINGS and "id" in attrs:
            self.heading = tag
            self.found.append(["", attrs["id"], set()])

    def handle_endtag(self, tag):
        """Ends a heading, or what is no text of the page."""
        if tag in SILENT:
            self.silent -= 1
        elif tag == self.heading:
            self.heading = None

    def handle_data(self, data):
        """Takes the words of a text."""
        if self.silent:
            return
        if self.heading and data.strip() != "#":
            self.found[-1][0] += data
        self.found[-1][2].update(word.lower() for word in WORD.findall(data))


def index(pages):
    """The index of pages, each a title, a path and its HTML: pages, sections, and the sections of each word."""
    titles, sections, words = [], [], {}
    for title, path, text in pages:
        parser = Sections()
        parser.feed(text)
        for heading, anchor, found in parser.found:
            if not found:
                continue
            for word in found:
                words.setdefault(word, []).append(len(sections))
            sections.append([len(titles), " ".join(heading.split()), anchor])
        titles.append([title, path])
    return {"pages": titles, "sections": sections, "words": dict(sorted(words.items()))}


def script(pages):
    """The script that holds the index; the numbers of a word's sections are written as their distances."""
    found = index(pages)
    found["words"] = {word: [at - before for before, at in zip([0, *ats], ats)] for word, ats in found["words"].items()}
    text = json.dumps(found, ensure_ascii=False, separators=(",", ":"))
    return f"// Written by ./site: what is searched.\nwindow.searchIndex = {text};\n"
