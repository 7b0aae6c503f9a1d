#!/usr/bin/env python3
"""Writes the pages of a package, with links that lead to files of the package.

    package_pages.py ROOT

ROOT has the files of the package but the pages, which are written into its usr/share/doc/custody. A link to a file that
the package has leads there, and is named after its new place if its text was the old one. A link to another file of the
repository becomes its text; the first page loses the row of such a link, and the chapters that have no other. A link to
nothing is printed, and the status is then 1.
"""
import os
import re
import sys
from pathlib import Path

TOP = Path(__file__).resolve().parent.parent
DOCUMENTS = "/usr/share/doc/custody"
FIRST = "docs/README.md"
PAGES = {
    "CHANGELOG.md": f"{DOCUMENTS}/CHANGELOG.md",
    **{f"docs/{name}": f"{DOCUMENTS}/{name}" for name in ("README.md", "COMMANDS.md", "POLICY.md", "PROTOCOL.md")},
    **{f"docs/operating/{page.name}": f"{DOCUMENTS}/operating/{page.name}"
       for page in (TOP / "docs/operating").glob("*.md")},
    **{f"docs/measured/{name}.md": f"{DOCUMENTS}/measured/{name}.md"
       for name in ("client", "full-and-spoiled", "large-objects", "load", "memory", "site")},
}
PLACES = PAGES | {
    "LICENSE": f"{DOCUMENTS}/copyright",
    "deploy/nginx/site": f"{DOCUMENTS}/examples/nginx-site",
    "deploy/sshd/custody.conf": f"{DOCUMENTS}/examples/sshd-custody.conf",
    "deploy/systemd/custody-group.conf": f"{DOCUMENTS}/examples/custody-group.conf",
    "deploy/systemd/custody.service": "/lib/systemd/system/custody.service",
    "deploy/policy.toml": "/etc/custody/policy.toml",
    "deploy/web/locks.html": "/usr/share/custody/locks.html",
    "docs/locks.png": f"{DOCUMENTS}/locks.png",
    **{f"examples/{name}": f"{DOCUMENTS}/examples/{name}" for name in ("custody-check-size", "policy.toml")},
    **{f"deploy/programs/{it.name}": f"/usr/lib/custody/{it.name}" for it in (TOP / "deploy/programs").iterdir()},
}
LINK = re.compile(r"\[([^\]]*)\]\(([^)\s]+)\)")
ROW = re.compile(r"^\| \[[^\]]*\]\(([^)\s#]+)[^|]*\|.*\n", re.M)
EMPTY_CHAPTER = re.compile(r"^## .*\n\n\|.*\n\|[-|]+\n(?=\n|\Z)\n?", re.M)


def path_of(target, page):
    """The path in the repository to which a link of the page leads."""
    return os.path.normpath(os.path.join(os.path.dirname(page), target.partition("#")[0]))


def is_local(target):
    """Whether a link leads to a file, and not to a site or into its own page."""
    return not re.match(r"[a-z]+:|#", target)


def link_of(link, page):
    """The link in the package, or its text."""
    text, target = link[1], link[2]
    if not is_local(target):
        return link[0]
    path = path_of(target, page)
    if path not in PLACES:
        return text if (TOP / path).exists() else link[0]
    anchor = target.partition("#")[1] + target.partition("#")[2]
    new_text = text.replace(path, PLACES[path]) if text.strip("`") == path else text
    return f"[{new_text}]({os.path.relpath(PLACES[path], os.path.dirname(PAGES[page]))}{anchor})"


def text_of(page):
    """The text of a page, with the links of the package."""
    text = (TOP / page).read_text()
    if page == FIRST:
        text = ROW.sub(lambda row: row[0] if path_of(row[1], page) in PLACES else "", text)
        text = EMPTY_CHAPTER.sub("", text)
    return LINK.sub(lambda link: link_of(link, page), text)


def faults(root):
    """The links of the written pages that lead to nothing."""
    for place in PAGES.values():
        page = Path(root + place)
        for _, target in LINK.findall(page.read_text()):
            if is_local(target) and not (page.parent / target.partition("#")[0]).exists():
                yield f"{place}: the link {target} leads to nothing"


def main(root):
    """Writes the pages, and returns the status."""
    for page, place in PAGES.items():
        Path(root + place).parent.mkdir(parents=True, exist_ok=True)
        Path(root + place).write_text(text_of(page))
    found = list(faults(root))
    print("".join(f"package_pages.py: {it}\n" for it in found), end="", file=sys.stderr)
    return 1 if found else 0


if __name__ == "__main__":
    sys.exit(main(sys.argv[1]))
