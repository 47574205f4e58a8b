"""What checks/house counts of the crates: where the picture of docs/contributing/ARCHITECTURE.md has each."""
import re

from house_words import text_of
from specs import rested_on

PICTURE = re.compile(r"```text\n(.*?)```", re.S)


def rows_of_picture():
    """Returns each crate that the picture names, with its row, counted from the top."""
    picture = PICTURE.search(text_of("docs/contributing/ARCHITECTURE.md"))[1]
    return {crate: row for row, line in enumerate(picture.splitlines()) for crate in re.findall(r"\bupon\w*", line)}


def out_of_picture():
    """The crates that the picture has not, and those that it has no higher than one that they rest on."""
    rows = rows_of_picture()
    for crate, below in rested_on().items():
        if crate not in rows:
            yield f"{crate}: is not in the picture"
            continue
        for it in below:
            if rows.get(it, len(rows)) <= rows[crate]:
                yield f"{crate}: is not above {it}"
