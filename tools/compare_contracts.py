#!/usr/bin/env python3
"""Lists the public functions whose contracts differ between two commits, and the definitions that changed.

A contract is the signature of a `pub fn` with its `requires` and `ensures`. For each function of either commit that has
another contract in the other, or none there, it prints both; then the names of the definitions in `specs/` that were
added, removed or changed. The clauses cite those, so a contract may say something else with no change in its text.

It needs python3 and git.

    tools/compare_contracts.py OLD [NEW]
"""
import re
import subprocess
import sys


def git(*words):
    """What Git prints."""
    return subprocess.run(["git", *words], check=True, capture_output=True, text=True).stdout


def files(commit, folder, ending):
    """The paths and texts of the crates' files in this folder, those of tests aside."""
    for path in git("ls-tree", "-r", "--name-only", commit, "crates").splitlines():
        parts = path.split("/")
        if len(parts) > 2 and parts[2] == folder and path.endswith(ending) and not parts[1].endswith("_tests"):
            yield path, git("show", f"{commit}:{path}")


def contracts(commit):
    """The public functions: crate, type or trait, and name, each with its contract."""
    found = {}
    for path, text in files(commit, "src", ".rt"):
        crate, owner, lines = path.split("/")[1], "", text.splitlines()
        traits = set(re.findall(r"^pub trait (.*?) \{", text, re.M))
        for at, line in enumerate(lines):
            if of := re.match(r"(?:pub )?(?:impl|trait)\b(?:<.*?>)? ?(.*?)(?: where.*)? \{", line):
                owner = of[1]
            elif line == "}":
                owner = ""
            named = re.match(r" *pub (?:const )?fn (\w+)", line) or (owner in traits and re.match(r"    fn (\w+)", line))
            if not named:
                continue
            end, margin = at, line[: len(line) - len(line.lstrip())]
            while not re.match(margin + r"(?! ).*(\{|\})$|.*;$", lines[end]):
                end += 1
            text_of = " ".join(part.strip() for part in lines[at : end + 1])
            found[f"{crate}: {owner + ' ' if owner else ''}{named[1]}"] = re.sub(r"\s+", " ", text_of).rstrip("{ ")
    return found


def definitions(commit):
    """The definitions of `specs/`, each with its text without comments."""
    found = {}
    for path, text in files(commit, "specs", ".antt"):
        name, body = None, []
        for line in text.splitlines() + [""]:
            if line.strip().startswith("--") or re.match(r"(pub )?(use|mod) ", line):
                continue
            start = re.match(r" *(?:unfoldable |abbrev |opaque )*pub (?:unfoldable |abbrev )*(?:record |data )?(\S+)", line)
            if start and not re.match(r" +pub \S+ :", line) or not line.strip():
                if name:
                    found[name] = re.sub(r"\s+", " ", " ".join(body)).strip()
                name, body = (f"{path.split('/')[1]}: {start[1]}", []) if start and line.strip() else (None, [])
            body.append(line)
    return found


def main():
    """Prints what differs."""
    old, new = sys.argv[1], sys.argv[2] if len(sys.argv) > 2 else "HEAD"
    before, after = contracts(old), contracts(new)
    print(f"{len(before)} public functions in {old}, {len(after)} in {new}")
    for name in sorted(before.keys() | after.keys()):
        if before.get(name) != after.get(name):
            print(f"\n{name}\n  - {before.get(name, 'none')}\n  + {after.get(name, 'none')}")
    was, now = definitions(old), definitions(new)
    for word, names in (
        ("added", now.keys() - was.keys()),
        ("removed", was.keys() - now.keys()),
        ("changed", {name for name in was.keys() & now.keys() if was[name] != now[name]}),
    ):
        print(f"\ndefinitions {word}: {', '.join(sorted(names)) or 'none'}")


main()
