"""diffs.py: whether the lines that a page shows as a change stand in the tree.

Of each block ```diff of a page (*.md): a line without + or - names a file, and each line with + behind it stands in that
file, whatever its line breaks and white space. It prints what does not, with page and line, and exits 1 if there is any.
"""
import re
import subprocess
import sys
from pathlib import Path


def bare(text):
    """The text without white space, and without the comma that a formatter puts behind a last argument."""
    return re.sub(r",(?=[)\]}])", "", "".join(text.split()))


def main():
    root = Path(__file__).resolve().parent.parent
    listed = subprocess.run(["git", "ls-files", "*.md"], cwd=root, capture_output=True, text=True, check=True).stdout.split()
    wrong = []
    for page in listed:
        inside, file = False, None
        for number, line in enumerate((root / page).read_text(encoding="utf-8").splitlines(), 1):
            if line.startswith("```"):
                inside = line.strip() == "```diff"
            elif inside and line.startswith("+"):
                if file is None or not file.is_file():
                    wrong.append(f"{page}:{number}: no file for this line")
                elif bare(line[1:]) not in bare(file.read_text(encoding="utf-8")):
                    wrong.append(f"{page}:{number}: not in {file.relative_to(root)}: {line[1:].strip()}")
            elif inside and line and not line.startswith(("-", " ")):
                file = root / line.split()[0]
    for line in wrong:
        print(line)
    return 1 if wrong else 0


if __name__ == "__main__":
    sys.exit(main())
