#!/usr/bin/env python3
"""snippets.py FILE LANGUAGE..: cuts the examples out of a header or a Markdown file, compiles each without a warning and runs it in this folder.

LANGUAGE is c (C99), c++ (C++98, of the same snippets as c) or rust; one of which the file has no snippet is a failure. In a header a snippet is what is
indented by five or more below ` * Example:`; in Markdown it is a block fenced with three backquotes and `c` or `rust`. A snippet without a main is the
body of one, in C below <assert.h>, <stdio.h> and <string.h>. It must end with status 0 and, if the next fenced block is an `output`, print that and
nothing else. C finds the installed library by pkg-config, Rust takes host/rust by its path, with no registry."""

import json
import re
import shlex
import subprocess
import sys
import tempfile
from collections import namedtuple
from pathlib import Path

HERE = Path(__file__).resolve().parent
Snippet = namedtuple("Snippet", "file line language code output")

STRICT = ["-Wall", "-Wextra", "-Werror", "-pedantic", "-O1"]
COMPILERS = {"c": ["gcc", "-std=c99", *STRICT], "c++": ["g++", "-std=c++98", "-x", "c++", *STRICT]}
C_MAIN = "#include <assert.h>\n#include <stdio.h>\n#include <string.h>\n#include <nuvaleta.h>\nint main(void) {{\n{}\n    return 0;\n}}\n"
RUST_MAIN = "fn main() -> Result<(), Box<dyn std::error::Error>> {{\n{}\n    Ok(())\n}}\n"
MANIFEST = '[package]\nname = "snippets"\nversion = "0.0.0"\nedition = "2021"\n\n[dependencies]\nnuvaleta = {{ path = {} }}\n'


class Wrong(Exception):
    pass


def of_header(file, lines):
    """The examples in the comments of a header."""
    found, code = [], None
    for number, line in enumerate(lines, 1):
        if code is not None and (line.startswith(" *     ") or line == " *"):
            code.append(line[7:])
            continue
        code = None
        if line == " * Example:":
            code = []
            found.append(Snippet(file, number + 1, "c", code, None))
    return [s._replace(code="\n".join(s.code)) for s in found]


def of_markdown(file, lines):
    """The fenced blocks of a Markdown file; an `output` belongs to the block before it."""
    found, fence = [], None
    for number, line in enumerate(lines, 1):
        if not line.startswith("```"):
            if fence is not None:
                fence.code.append(line)
        elif fence is None:
            fence = Snippet(file, number + 1, line[3:].strip(), [], None)
        else:
            code = "".join(part + "\n" for part in fence.code)
            if fence.language == "output" and found:
                found[-1] = found[-1]._replace(output=code)
            else:
                found.append(fence._replace(code=code))
            fence = None
    if fence is not None:
        raise Wrong(f"{file}:{fence.line - 1}: a fenced block that is not closed")
    return found


def run(words, what, **more):
    done = subprocess.run(words, stdout=subprocess.PIPE, stderr=subprocess.PIPE, text=True, **more)
    if done.returncode != 0:
        raise Wrong(f"{what}: status {done.returncode}\n{done.stdout}{done.stderr}")
    return done.stdout


def run_snippet(snippet, program):
    where = f"{snippet.file}:{snippet.line}"
    said = run([program], where)
    if snippet.output is not None and said != snippet.output:
        raise Wrong(f"{where}: prints\n{said}in place of\n{snippet.output}")


def run_c(snippets, compiler):
    found = shlex.split(run(["pkg-config", "--cflags", "--libs", "nuvaleta"], "pkg-config"))
    with tempfile.TemporaryDirectory() as work:
        for snippet in snippets:
            # the compiler speaks of the line in the file that the snippet was cut out of
            code = f"#line {snippet.line} {json.dumps(snippet.file)}\n{snippet.code}"
            whole = code if re.search(r"\bmain\s*\(", code) else C_MAIN.format(code)
            source, program = Path(work, "snippet.c"), Path(work, "snippet")
            source.write_text(whole)
            run([*compiler, "-o", program, source, "-x", "none", *found], f"{snippet.file}:{snippet.line}")
            run_snippet(snippet, program)


def run_rust(snippets):
    project = HERE / "build" / "snippets"
    programs = project / "src" / "bin"
    programs.mkdir(parents=True, exist_ok=True)
    for old in programs.iterdir():
        old.unlink()
    for number, snippet in enumerate(snippets):
        whole = snippet.code if re.search(r"\bfn main\b", snippet.code) else RUST_MAIN.format(snippet.code)
        (programs / f"snippet{number}.rs").write_text("#![deny(warnings)]\n" + whole)
    (project / "Cargo.toml").write_text(MANIFEST.format(json.dumps(str(HERE.parent / "rust"))))
    where = ", ".join(f"snippet{number} is {s.file}:{s.line}" for number, s in enumerate(snippets))
    run(["cargo", "build", "--release", "--offline", "--quiet"], where, cwd=project)
    for number, snippet in enumerate(snippets):
        run_snippet(snippet, project / "target" / "release" / f"snippet{number}")


def check(file, languages):
    lines = Path(file).read_text().splitlines()
    all_of = (of_header if file.endswith(".h") else of_markdown)(file, lines)
    for language in languages:
        snippets = [s for s in all_of if s.language == ("c" if language == "c++" else language)]
        if not snippets:
            raise Wrong(f"{file} has no snippet in {language}")
        if language == "rust":
            run_rust(snippets)
        else:
            run_c(snippets, COMPILERS[language])
        print(f"snippets: {Path(file).name}: {len(snippets)} in {language} compile and run")


def main(words):
    if len(words) < 2 or any(language not in ("c", "c++", "rust") for language in words[1:]):
        print("usage: snippets.py FILE c|c++|rust..", file=sys.stderr)
        return 2
    try:
        check(words[0], words[1:])
    except (Wrong, OSError) as why:
        print(f"snippets: {why}", file=sys.stderr)
        return 1
    return 0


if __name__ == "__main__":
    sys.exit(main(sys.argv[1:]))
