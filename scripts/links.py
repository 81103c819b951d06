"""links.py: whether what pages send a reader to is there.

Of every page (*.md) that git holds: each link's file, and its section where the link names one; and, in any file, each
section named beside a page (docs/RULES.md, "Commit"): a heading of that page, or words that stand in bold there.
It prints each one that is not there, with file and line, and exits 1 if there is any.
"""
import re
import subprocess
import sys
from pathlib import Path

LINK = re.compile(r"\]\(([^)\s]+)\)")
NAMED = re.compile(r'\b((?:docs/|bench/|reference/|tests/hosts/)?[A-Z][A-Z-]+\.md)(?:\]\([^)]*\))?[,)]? "([^"]+)"')
ELSEWHERE = re.compile(r"https?:|mailto:")


def slug(text):
    """The anchor that a heading gets."""
    return re.sub(r"[^\w\- ]", "", re.sub(r"[`*]", "", text).lower()).strip().replace(" ", "-")


def main():
    root = Path(__file__).resolve().parent.parent
    listed = subprocess.run(["git", "ls-files"], cwd=root, capture_output=True, text=True, check=True).stdout.split()
    files = [name for name in listed if (root / name).is_file()]
    pages = {name: (root / name).read_text(encoding="utf-8") for name in files if name.endswith(".md")}
    anchors = {name: {slug(head) for head in re.findall(r"^#+ (.*)$", text, re.M)} for name, text in pages.items()}
    bold = {name: {slug(words.strip(".:,")) for words in re.findall(r"\*\*(.+?)\*\*", text)} for name, text in pages.items()}
    missing = []

    for name, text in pages.items():
        for number, line in enumerate(text.splitlines(), 1):
            for target in LINK.findall(line):
                if ELSEWHERE.match(target):
                    continue
                path, _, anchor = target.partition("#")
                file = ((root / name).parent / path).resolve() if path else root / name
                to = str(file.relative_to(root)) if file.is_relative_to(root) else path
                if not file.exists():
                    missing.append(f"{name}:{number}: no {target}")
                elif anchor and to in anchors and anchor not in anchors[to]:
                    missing.append(f"{name}:{number}: no section {target}")

    for name in files:
        try:
            lines = (root / name).read_text(encoding="utf-8").splitlines()
        except UnicodeDecodeError:
            continue
        for number, line in enumerate(lines, 1):
            for path, section in NAMED.findall(line):
                near = [path, str(Path(name).parent / path), f"docs/{path}"]
                to = next((at for at in near if at in pages), None)
                if to is None:
                    missing.append(f"{name}:{number}: no page {path}")
                elif slug(section.rstrip(".,")) not in anchors[to] | bold[to]:
                    missing.append(f'{name}:{number}: {to} has no "{section}"')

    for line in missing:
        print(line)
    return 1 if missing else 0


if __name__ == "__main__":
    sys.exit(main())
