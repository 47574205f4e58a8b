"""The recipes of docs/contributing/RECIPES.md, and the files that they name."""
import glob
import os
import re

TOP = os.path.dirname(os.path.dirname(os.path.dirname(os.path.abspath(__file__))))
PAGE = os.path.join(TOP, "docs", "contributing", "RECIPES.md")
# Files that have no folder, by which they would be known.
AT_THE_TOP = ("check-program", "check-tool", "CHANGELOG.md")


def recipes():
    """Returns the lines of each recipe, by its heading. A point that goes on in the next line is one line here."""
    found, heading = {}, None
    for line in open(PAGE, encoding="utf8").read().split("\n"):
        if line.startswith("## "):
            heading = line[3:]
            found[heading] = []
        elif line.startswith("  ") and heading:
            found[heading][-1] += " " + line.strip()
        elif heading:
            found[heading].append(line)
    return found


def spelled_out(path):
    """Returns the paths that a path with a list in braces stands for."""
    found = re.fullmatch(r"(.*)\{(.*)\}(.*)", path)
    return [found.group(1) + name + found.group(3) for name in found.group(2).split(",")] if found else [path]


def named(lines):
    """Yields the paths that a recipe names, each with its crate in front if a point begins with that."""
    for line in lines:
        point = re.match(r"- `(upon\w*)`[,:]", line)
        for words in re.findall(r"`([^`]+)`", line):
            crate = point.group(1) if point and re.match(r"(src|specs|proofs)/", words) else None
            if crate or words.startswith(("docs/", "checks/", "conformance/")) or words in AT_THE_TOP:
                paths = spelled_out(words.split()[0])
                yield from (os.path.join("crates", crate, path) if crate else path for path in paths)


def files(path):
    """Returns the files that a path names: one, a module without its ending, or all in a folder."""
    whole = os.path.join(TOP, path)
    if os.path.isdir(whole):
        inside = glob.glob(os.path.join(whole, "**", "*"), recursive=True)
        return [os.path.relpath(one, TOP) for one in inside if os.path.isfile(one)]
    return [path + ending for ending in ("", ".antt") if os.path.isfile(whole + ending)]


def files_of(lines):
    """Returns the files that a recipe names, each once."""
    return {file for path in named(lines) for file in files(path)}
