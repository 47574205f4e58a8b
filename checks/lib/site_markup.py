"""Markdown pages as HTML: with links between pages and to definitions, and the samples with what they print.

It is written by Debian's python3-markdown.
"""
import html
import re
import xml.etree.ElementTree as ElementTree

import markdown
from markdown.extensions import Extension
from markdown.treeprocessors import Treeprocessor

import site_pictures
import site_words
from site_pages import key_of

BLOCK = re.compile(r'<pre><code(?: class="language-(\w+)")?>(.*?)</code></pre>', re.S)
PICTURE = re.compile(r"<p>picture-(\d+)</p>")
FILE = re.compile(r"(?:(?:docs|proof|contributing|\.\.)/)*([A-Z]+)\.md")
# The pages whose names in code are definitions, unless they are those of other things.
OF_PROOF = {"theorem", "promises", "definitions", "logic", "differences", "architecture"}
# What a block's kind is called above it.
LABELS = {"sh": "Run", "rust": "Rattle", "antt": "Logic", "c": "C", "python": "Python", "html": "HTML", "json": "JSON",
          "toml": "TOML", "yaml": "YAML"}
# What a column of numbers holds.
NUMBER = re.compile(r"[\d.,]+( ms)?|")


def text_of(element):
    """The text of an element, in one line."""
    return " ".join("".join(element.itertext()).split())


class Links(Treeprocessor):
    """Links pages and definitions, lets wide tables scroll, and leaves places for pictures."""

    def __init__(self, md, markup):
        super().__init__(md)
        self.markup = markup

    def run(self, root):
        """Works on the tree of a page."""
        self.of_anchors(root)
        if self.markup.key == "logic":
            self.of_words(root)
        for parent in list(root.iter()):
            for at, child in reversed(list(enumerate(parent))):
                if child.tag == "table":
                    self.of_table(parent, at, child)
                elif child.tag == "code" and parent.tag not in ("a", "pre"):
                    self.of_code(parent, at, child)
                elif child.tag == "p" and child.find("img") is not None:
                    parent.remove(child)

    def of_anchors(self, root):
        """Links to pages of the repository become links to pages of the site."""
        for anchor in root.iter("a"):
            found = FILE.fullmatch(anchor.get("href", ""))
            if found and key_of(found.group(1)) in self.markup.keys:
                anchor.set("href", key_of(found.group(1)) + ".html")

    def of_words(self, root):
        """Each word that an item of a list is about becomes a place that can be linked to."""
        for item in root.iter("li"):
            if len(item) and item[0].tag == "code":
                item.set("id", item[0].text)

    def of_code(self, parent, at, code):
        """A page's name in code, and a definition's in a page about the proof, become links."""
        text = code.text or ""
        if "\\|" in text and parent.tag == "td":
            code.text = text = markdown.util.AtomicString(text.replace("\\|", "|"))
        target = self.markup.target(text)
        if target:
            anchor = ElementTree.Element("a", {"href": target})
            anchor.tail, code.tail = code.tail, None
            anchor.append(code)
            parent[at] = anchor

    def of_table(self, parent, at, table):
        """A table stands in a box that scrolls; numbers stand to the right; a picture of it before it, if there is one."""
        rows = [[text_of(cell) for cell in row] for row in table.iter("tr")]
        for column in range(len(rows[0])):
            if all(NUMBER.fullmatch(row[column]) for row in rows[1:]) and any(row[column] for row in rows[1:]):
                for row in table.iter("tr"):
                    row[column].set("class", "number")
        if rows[0][:2] == ["crate", "module"]:
            self.of_modules(table)
        about = "Table: " + ", ".join(rows[0][:3])
        box = ElementTree.Element("div", {"class": "scroll", "role": "region", "tabindex": "0", "aria-label": about})
        box.tail, table.tail = "\n", None
        box.append(table)
        parent[at] = box
        picture = site_pictures.of_table(rows) if self.markup.key == "performance" else None
        if picture:
            place = ElementTree.Element("p")
            place.text = f"picture-{len(self.markup.pictures)}"
            self.markup.pictures.append(picture)
            parent.insert(at, place)

    def of_modules(self, table):
        """Each module of a list becomes a link to its definitions."""
        for row in list(table.iter("tr"))[1:]:
            page, module = site_words.definition_page(text_of(row[0])), row[1]
            anchor = ElementTree.Element("a", {"href": site_words.href(page, text_of(module))})
            anchor.extend(list(module))
            for child in list(module):
                module.remove(child)
            module.append(anchor)


class RunsLinks(Extension):
    """Has `Links` run after all other work on the tree."""

    def __init__(self, markup):
        super().__init__()
        self.markup = markup

    def extendMarkdown(self, md):
        """Adds it to a reader of Markdown."""
        md.treeprocessors.register(Links(md, self.markup), "links", 1)


class Markup:
    """Makes pages of Markdown."""

    def __init__(self, words, keys):
        self.words = words
        self.keys = keys
        self.key = ""
        self.pictures = []
        self.before = ""

    def target(self, text):
        """The page or definition that a text in code names, if it names one."""
        found = FILE.fullmatch(text)
        if found:
            key = "index" if found.group(1) == "README" else key_of(text)
            return key + ".html" if key in self.keys and key != self.key else None
        return self.words.in_page(text) if self.key in OF_PROOF else None

    def page(self, key, text):
        """The parts of a page (HTML and pictures), its title and its headings."""
        self.key, self.pictures, self.before = key, [], ""
        md = markdown.Markdown(
            extensions=["tables", "fenced_code", "toc", "sane_lists", RunsLinks(self)], tab_length=2,
            extension_configs={"toc": {"permalink": "#", "permalink_title": "Link to this place"}})
        out = md.convert(text)
        if key == "performance" and len(self.pictures) < len(site_pictures.TABLES):
            raise SystemExit("site: docs/PERFORMANCE.md has not each table that site_pictures.py makes a picture of")
        out = BLOCK.sub(lambda found: self.block(found.group(1) or "", found.group(2)), out)
        pieces = PICTURE.split(out)
        parts = [{"html": piece} if at % 2 == 0 else self.pictures[int(piece)] for at, piece in enumerate(pieces)]
        headings = md.toc_tokens
        title = html.unescape(headings[0]["name"])
        below = headings[0]["children"] + [it for one in headings[1:] for it in [one, *one["children"]]]
        return parts, title, [{"id": it["id"], "title": html.unescape(it["name"])} for it in below]

    def block(self, kind, text):
        """A block of code: what it is, and what it prints if it is what the commands before it print."""
        label = "Prints" if kind == "text" and self.before == "sh" else LABELS.get(kind, "")
        follows = " prints" if label == "Prints" else ""
        self.before = kind
        if "ensures " in text and self.key in OF_PROOF | {"index"}:
            text = self.words.clause(html.unescape(text), self.key == "theorem")
            label = "Clauses"
        about = f'<figcaption>{label}</figcaption>' if label else ""
        return f'<figure class="code{follows}">{about}<pre tabindex="0"><code>{text}</code></pre></figure>'

    def line(self, text, of):
        """Words in one line as HTML, where `of` links what is in code."""
        out = markdown.markdown(text).removeprefix("<p>").removesuffix("</p>")
        return re.sub(r"<code>(.*?)</code>", lambda found: self.code(found, of), out)

    def code(self, found, of):
        """What is in code, linked if it is a definition."""
        target = of(html.unescape(found.group(1)))
        return f'<a href="{html.escape(target)}">{found.group()}</a>' if target else found.group()
