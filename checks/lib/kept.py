"""What edits came to in earlier runs on this machine, as `rt ci` keeps what it has proved: of a crate of which no file has changed
since, nor of those below it, nor the prover, nor these scripts."""
import hashlib
import os

HERE = os.path.dirname(os.path.abspath(__file__))
SCRIPTS = [os.path.join(os.path.dirname(HERE), "edits"), *(os.path.join(HERE, name) for name in sorted(os.listdir(HERE)) if name.endswith(".py"))]
PLACE = os.path.join(os.environ.get("XDG_CACHE_HOME") or os.path.expanduser("~/.cache"), "cellarcress-edits")


def sum_of(*parts):
    """Returns the sum of some bytes, each part by itself."""
    found = hashlib.sha256()
    for part in parts:
        found.update(f"{len(part)}\n".encode())
        found.update(part)
    return found.hexdigest()


def content(path):
    """Returns the bytes of a file."""
    with open(path, "rb") as file:
        return file.read()


class Kept:
    """What is kept, by the sums of crates."""

    def __init__(self, module):
        kit = [path for path in (f"{module.rtlib.KIT}/{name}" for name in ("KIT-ID", "WHAT")) if os.path.isfile(path)]
        self.rtlib, self.of_kit, self.of_scripts = module.rtlib, sum_of(*map(content, kit)), sum_of(*map(content, SCRIPTS))

    def sum(self, crate, known=None):
        """Returns the sum of all that a crate is proved from: its files, those of the crates below, the prover."""
        known = {} if known is None else known
        if crate.name not in known:
            below = [self.sum(it, known).encode() for it in crate.deps]
            files = [(os.path.relpath(path, crate.folder), content(path)) for path in self.rtlib.files_of(crate.folder)]
            own = [part for name, text in files for part in (name.encode(), text)]
            known[crate.name] = sum_of(self.of_kit.encode(), repr(crate.of_kit).encode(), *own, *below)
        return known[crate.name]

    def name(self, crate):
        """Returns the name under which it is kept what a crate's edits came to."""
        folder = f"{crate.folder}/edits"
        edits = [part for name in sorted(os.listdir(folder)) for part in (name.encode(), content(f"{folder}/{name}"))]
        return sum_of(self.of_scripts.encode(), self.sum(crate).encode(), *edits)

    def known(self, crate):
        """Returns the names of the crate's functions, if a run has kept them."""
        return set(self.told(f"names-{self.sum(crate)}") or ())

    def keep_known(self, crate, names):
        """Keeps the names of the crate's functions, if that can be done."""
        self.keep(f"names-{self.sum(crate)}", sorted(names))

    def told(self, name):
        """Returns the lines that are kept under a name, or None."""
        try:
            return content(f"{PLACE}/{name}").decode().splitlines()
        except OSError:
            return None

    def keep(self, name, lines):
        """Keeps lines under a name, if that can be done."""
        try:
            os.makedirs(PLACE, exist_ok=True)
            with open(f"{PLACE}/{name}.{os.getpid()}", "w", encoding="utf-8") as file:
                file.writelines(line + "\n" for line in lines)
            os.replace(f"{PLACE}/{name}.{os.getpid()}", f"{PLACE}/{name}")
        except OSError:
            pass
