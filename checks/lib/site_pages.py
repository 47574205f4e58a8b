"""The pages of the site: which there are, and for which reader, as README.md's "Find your way" lists them."""
import dataclasses
import glob
import os
import re
import shlex

import specs

TOP = specs.TOP
GROUP = re.compile(r"^- \*\*(.*?)\*\*: (.*?)(?=^- \*\*|^## |\Z)", re.M | re.S)
LINK = re.compile(r"\[([^\]]+)\]\(([\w/]+\.md)\)")
HOME = "upon, proved"


@dataclasses.dataclass
class Page:
    """A page: its key, its file in the repository if it has one, its short name and for whom it is."""

    key: str
    source: str
    label: str
    group: str

    @property
    def path(self):
        """The name of its file in the site."""
        return self.key + ".html"


def text_of(path):
    """The text of a file of the repository."""
    with open(os.path.join(TOP, path), encoding="utf8") as file:
        return file.read()


def key_of(source):
    """The key of a file: `tool` of docs/TOOL.md."""
    return os.path.splitext(os.path.basename(source))[0].lower()


def spaced(text):
    """A text in one line, with a capital."""
    text = " ".join(text.split())
    return text[:1].upper() + text[1:]


def groups():
    """The readers, each with the pages that README.md lists for them, in its order."""
    way = text_of("README.md").partition("## Find your way")[2].partition("\n## ")[0]
    found = []
    for name, links in GROUP.findall(way):
        pages = [Page(key_of(path), path, spaced(label), name) for label, path in LINK.findall(links)]
        found.append((name, pages))
    if not found:
        raise SystemExit('site: README.md has no lists of pages in "Find your way"')
    found[0][1].insert(1, Page("samples", "", "Samples", found[0][0]))
    return found


def check(found):
    """Ends the run where a page of docs/ is in no list."""
    listed = {page.source for _, pages in found for page in pages}
    there = set(glob.glob("docs/**/*.md", root_dir=TOP, recursive=True))
    if there - listed:
        raise SystemExit("site: README.md's \"Find your way\" does not list " + ", ".join(sorted(there - listed)))


def jobs():
    """The jobs of checks/jobs, as check-tool runs them: title, output, template, data and options of each."""
    for line in text_of("check-tool").splitlines():
        if line.startswith("job '"):
            _, title, out, template, data, *options = shlex.split(line)
            yield title, out, template, data, [word.replace("$jobs", "checks/jobs") for word in options]


def samples():
    """What the page of samples shows of each job: template, data, output, and the command's words."""
    shown = []
    for title, out, template, data, options in jobs():
        files = [("Template", template), ("Data", data), ("Output", out)]
        parts = os.path.join(TOP, options[options.index("--templates") + 1]) if "--templates" in options else None
        included = sorted("parts/" + name for name in os.listdir(parts)) if parts else []
        files[1:1] = [("Included", name) for name in included]
        shown.append({"title": spaced(title), "id": template.replace(".", "-"), "options": " ".join(["--std", *options]),
                      "files": [{"what": what, "name": name, "text": text_of("checks/jobs/" + name)} for what, name in files]})
    return shown
