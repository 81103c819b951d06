"""pages.py RUNNER ARCHIVE PAGE...: runs the marked examples of the pages (see pages.sh).

A fenced block is run when its mark is one of these; what it must say stands in the next block:
  records   one record a line, CRLF ended here; then `answers`
  sh        run at the top of the repository, with `runner` to call and a folder $OUT; then `output`
  sh tool   the same, with `forgelilac` to call (tools/forgelilac) and the archive for `make install`; lines that
            begin with `export` hold for the later ones of the page. Not run where there is no archive
  c, rust   a whole program, with header or package and the archive; then `output`
Other blocks are not run.
"""
import os
import subprocess
import sys
import tempfile

EXPECTED = {"records": "answers", "sh": "output", "sh tool": "output", "c": "output", "rust": "output"}
TOOL = "tools/forgelilac"


def blocks_of(path):
    """(line, mark, text) of each fenced block."""
    blocks, mark, start, lines = [], None, 0, []
    for number, line in enumerate(open(path, encoding="utf-8"), 1):
        if not line.startswith("```"):
            lines.append(line)
        elif mark is None:
            mark, start, lines = line[3:].strip(), number, []
        else:
            blocks.append((start, mark, "".join(lines)))
            mark = None
    if mark is not None:
        sys.exit(f"{path}:{start}: block without an end")
    return blocks


def examples_of(path):
    """(line, mark, text, expected) of each block that is run."""
    blocks = blocks_of(path)
    for (line, mark, text), following in zip(blocks, blocks[1:] + [(0, "", "")]):
        if mark in EXPECTED:
            if following[1] != EXPECTED[mark]:
                sys.exit(f"{path}:{line}: {mark} without {EXPECTED[mark]}")
            yield line, mark, text, following[2]


class Workshop:
    """A folder with the runner and the archive in it and, once a page asks for it, the Rust package."""

    def __init__(self, folder, runner, archive):
        self.folder, self.package = folder, f"{folder}/libforgelilac"
        self.linked = os.path.exists(archive)
        self.exports = ""
        self.environment = {**os.environ, "PATH": f"{folder}:{os.environ['PATH']}", "OUT": folder,
                            "ARCHIVE": os.path.realpath(archive), "FORGELILAC_ARCHIVE": os.path.realpath(archive)}
        os.symlink(runner, f"{folder}/runner")
        os.symlink(archive, f"{folder}/libforgelilac.a")

    def said(self, command, text=""):
        """Exit code and what was said, both streams together."""
        done = subprocess.run(command, input=text.encode(), stdout=subprocess.PIPE,
                              stderr=subprocess.STDOUT, env=self.environment)
        return done.returncode, done.stdout.decode(errors="replace")

    def records(self, text):
        code, output = self.said(["runner"], text.replace("\n", "\r\n"))
        bare = "\n" in output.replace("\r\n", "")
        return code, "a line without CRLF\n" if bare else output.replace("\r\n", "\n")

    def sh(self, text):
        code, output = self.said(["sh", "-c", text])
        return code, output.replace("\r\n", "\n")

    def sh_tool(self, text):
        """Where there is an archive, with the tool built; else nothing is said."""
        if not self.linked:
            return 0, None
        tool = f"{self.folder}/forgelilac"
        if not os.path.exists(tool):
            code, output = self.said(["cargo", "build", "-q", "--release", "--offline", "--locked", "--manifest-path",
                                      f"{TOOL}/Cargo.toml"])
            if code != 0:
                return code, output
            os.symlink(os.path.abspath(f"{TOOL}/target/release/forgelilac"), tool)
        code, output = self.sh(self.exports + text)
        self.exports += "".join(line for line in text.splitlines(True) if line.startswith("export "))
        return code, output

    def c(self, text):
        link = ["-L", self.folder, "-lforgelilac"] if self.linked else ["-c"]
        return self.program("program.c", text, ["gcc", "-std=c11", "-O2", "-Wall", "-Wextra", "-Werror",
                                                "-pedantic", "-Iinclude"], link)

    def rust(self, text):
        compile = ["rustc", "--edition", "2021", "-O", "-D", "warnings"]
        form, ending = ([], "rlib") if self.linked else (["--emit=metadata"], "rmeta")
        package = f"{self.package}.{ending}"
        if not os.path.exists(package):
            link = ["-L", self.folder, "-l", "static=forgelilac"] if self.linked else []
            code, output = self.said(compile + ["--crate-name", "forgelilac", "--crate-type", "rlib", "--cfg",
                                                'feature="alloc"', "bindings/rust/src/lib.rs", "-o", package] + form + link)
            if code != 0:
                return code, output
        return self.program("program.rs", text, compile, ["--extern", f"forgelilac={package}"] + form)

    def program(self, name, text, command, link):
        """Compiled and, where there is an archive, run; else nothing is said."""
        with open(f"{self.folder}/{name}", "w", encoding="utf-8") as file:
            file.write(text)
        code, output = self.said(command + [f"{self.folder}/{name}", "-o", f"{self.folder}/program"] + link)
        if code != 0:
            return code, output
        return self.said([f"{self.folder}/program"]) if self.linked else (0, None)


def run_pages(workshop, pages):
    """How many examples of each mark ran, how many were wrong, how many were only compiled or not run."""
    counts, wrong, compiled = dict.fromkeys(EXPECTED, 0), 0, 0
    for page in pages:
        workshop.exports = ""
        for line, mark, text, expected in examples_of(page):
            counts[mark] += 1
            code, output = getattr(workshop, mark.replace(" ", "_"))(text)
            if output is None:
                compiled += 1
            elif (code, output) != (0, expected):
                wrong += 1
                print(f"{page}:{line}: the page does not show what {mark} says (exit {code}):\n{output}")
    return counts, wrong, compiled


def main():
    runner, archive, pages = sys.argv[1], sys.argv[2], sys.argv[3:]
    with tempfile.TemporaryDirectory() as folder:
        counts, wrong, compiled = run_pages(Workshop(folder, runner, archive), pages)
    print(", ".join(f"{count} {mark}" for mark, count in counts.items()) + f": {wrong} wrong"
          + (f", {compiled} only compiled or not run (no archive)" if compiled else ""))
    return 1 if wrong else 0


if __name__ == "__main__":
    sys.exit(main())
