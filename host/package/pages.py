#!/usr/bin/env python3
"""pages.py FOLDER: writes below FOLDER/share the man page of the command and its completions for bash and zsh, all made of the help pages,
host/rust/src/help. A page begins with its usage, up to the first empty line; there, and at the start of an indented line, options are told, each with the
word for its value."""
import re
import sys
from collections import namedtuple
from pathlib import Path

HOST = Path(__file__).resolve().parents[1]
# `names` are the words that may follow the command's own; `options` has of each the word for its value or None.
Page = namedtuple("Page", "name usage body names options")
FOLDERS = {"DIR", "FOLDER", "OUT"}
FILES = {"FILE", "IMAGE", "BUNDLE"}
MADE = "made of the command's help pages by host/package/pages.py"


# ---- the pages


def read_page(name, text):
    usage, _, body = text.partition("\n\n")
    told = usage + "\n" + "\n".join(re.findall(r"^ +(--[a-z-]+(?: [A-Z]+)*)(?=  |$)", body, re.M))
    options = {}
    for option, value in re.findall(r"(?<![\w-])(--[a-z-]+)(?: ([A-Z]+)\b(?!\.))?", told):
        options[option] = options.get(option) or value or None
    choice = re.search(rf"^usage: nuvaleta {name} ([a-z-]+(?:\|[a-z-]+)+)", usage)
    names = [word for word in choice[1].split("|") if not word.startswith("-")] if choice else []
    return Page(name, usage.removeprefix("usage: ").strip(), body.strip("\n"), names, options)


def read_pages():
    """The page of the command as a whole, and those of its commands, in the order in which that one has them."""
    texts = {file.stem: file.read_text() for file in (HOST / "rust/src/help").glob("*.txt")}
    main = read_page("", texts.pop("nuvaleta"))
    listed = re.findall(r"^  ([a-z]+)\b", main.body, re.M)
    return main, [read_page(name, texts[name]) for name in sorted(texts, key=lambda name: (listed.index(name) if name in listed else len(listed), name))]


def told(main):
    """Of each command the first line that the page of the whole has for it."""
    found = {}
    for name, words in re.findall(r"^  ([a-z]+)\b.*?  +(\S.*)$", main.body, re.M):
        found.setdefault(name, words)
    return found


# ---- the man page


def roff(text):
    """A line of text as roff takes it: as it is, and no request."""
    text = text.replace("\\", "\\e").replace("-", "\\-").replace("`", "\\(ga").replace("'", "\\(aq").replace("^", "\\(ha").replace("~", "\\(ti")
    return "\\&" + text if text.startswith(".") else text


def shown(lines):
    """Lines as they are, further to the left than the rest where they are wide: 80 columns are to be enough."""
    indent = max(0, min(7, 80 - max(map(len, lines))))
    return [".PP", f".in {indent}n", ".nf", *map(roff, lines), ".fi", ".in"]


def breakable(line):
    """A long word without blanks, as an example of JSON is, may go on in the next line behind a comma."""
    return re.sub(r"\S{50,}", lambda word: word[0].replace(",", ",\\:"), line)


def paragraphs(body):
    """Prose is filled, and what is indented stands as it is."""
    made = []
    for part in re.split(r"\n\n+", body):
        lines = part.split("\n")
        made += shown(lines) if any(line.startswith(" ") for line in lines) else [".PP", *(breakable(roff(line)) for line in lines)]
    return made


def usages(pages):
    """Each form of each, in a line."""
    return [re.sub(r"\s+", " ", form) for page in pages for form in re.split(r"\n *(?=nuvaleta )", page.usage)]


def man_page(main, pages, version):
    first = main.body.split(",")[0].split("\n")[0]
    lines = [f'.\\" {MADE}', f'.TH NUVALETA 1 "" "nuvaleta {version}" "User Commands"', ".nh", ".ad l",
             ".SH NAME", f"nuvaleta \\- {roff(first[0].lower() + first[1:])}", ".SH SYNOPSIS", *shown(usages([main, *pages])),
             ".SH DESCRIPTION", *paragraphs(main.body), ".SH COMMANDS"]
    for page in pages:
        lines += [f".SS {page.name}", *shown(usages([page])), *paragraphs(page.body)]
    return "\n".join(lines) + "\n"


# ---- completion


def taking(pages, kinds):
    """The options that take a value of one of these kinds, as a pattern of `case`."""
    return " | ".join(sorted({f"{page.name}:{option}" for page in pages for option, value in page.options.items() if value in kinds}))


def cases(pages, line):
    return "\n".join(f"    {page.name}) {line(page)} ;;" for page in pages)


BASH = """# {made}
_nuvaleta() {{
    local word=${{COMP_WORDS[COMP_CWORD]}} before=${{COMP_WORDS[COMP_CWORD - 1]}} command= second= each options= names=
    for each in "${{COMP_WORDS[@]:1:COMP_CWORD - 1}}"; do
        case $each in
        -*) ;;
        *) if [ -z "$command" ]; then command=$each; else second=yes; fi ;;
        esac
    done
    COMPREPLY=()
    [[ $word == -* ]] || case $command:$before in
    {folders})
        compopt -o filenames 2>/dev/null
        mapfile -t COMPREPLY < <(compgen -d -- "$word")
        return
        ;;
    {others}) compopt +o default 2>/dev/null && return ;;
    esac
    case $command in
    '') options='{options}' names='{commands} help' ;;
    help) names='{commands}' ;;
{cases}
    *) return ;;
    esac
    case $word in
    -*) mapfile -t COMPREPLY < <(compgen -W "$options" -- "$word") ;;
    *) [ -n "$second" ] || mapfile -t COMPREPLY < <(compgen -W "$names" -- "$word") ;;
    esac
}}
complete -o default -F _nuvaleta nuvaleta
"""

ZSH = """#compdef nuvaleta
# {made}
_nuvaleta() {{
    local word=$words[CURRENT] before=$words[CURRENT-1] command= second= each
    local -a options names commands
    commands=(
{described}
    )
    for each in ${{words[2,CURRENT-1]}}; do
        case $each in
        -*) ;;
        *) if [[ -z $command ]]; then command=$each; else second=yes; fi ;;
        esac
    done
    [[ $word == -* ]] || case $command:$before in
    {folders}) _files -/ && return ;;
    {others}) return 1 ;;
    esac
    case $command in
    '') options=({options}) ;;
{cases}
    esac
    case $command:$word in
    *:-*) compadd -- $options ;;
    : | :[^-]*) commands+=('help:the page of a command') && _describe command commands ;;
    help:*) [[ -n $second ]] || _describe command commands ;;
    *) if [[ -z $second ]] && (( $#names )); then compadd -- $names; else _files; fi ;;
    esac
}}
_nuvaleta "$@"
"""


def quoted(text):
    return "'" + text.replace("'", "'\\''") + "'"


def completions(main, pages):
    """Those for bash and for zsh."""
    others = {value for page in pages for value in page.options.values() if value} - FOLDERS - FILES
    words = {"made": MADE, "commands": " ".join(page.name for page in pages),
             "options": " ".join(sorted({"--help", "--version", "--json"} | set(main.options))),
             "folders": taking(pages, FOLDERS), "others": taking(pages, others)}
    about = told(main)
    bash = cases(pages, lambda page: f"options='{' '.join([*page.options, '--help'])}' names='{' '.join(page.names)}'")
    zsh = cases(pages, lambda page: f"options=({' '.join([*page.options, '--help'])}) names=({' '.join(page.names)})")
    described = "\n".join(f"        {quoted(page.name + ':' + about.get(page.name, ''))}" for page in pages)
    return BASH.format(cases=bash, **words), ZSH.format(cases=zsh, described=described, **words)


def main(folder):
    version = re.search(r'^version = "(.*)"$', (HOST / "rust/Cargo.toml").read_text(), re.M)[1]
    whole, pages = read_pages()
    bash, zsh = completions(whole, pages)
    made = {"man/man1/nuvaleta.1": man_page(whole, pages, version), "bash-completion/completions/nuvaleta": bash, "zsh/site-functions/_nuvaleta": zsh}
    for name, text in made.items():
        file = Path(folder) / "share" / name
        file.parent.mkdir(parents=True, exist_ok=True)
        file.write_text(text)


if __name__ == "__main__":
    if len(sys.argv) != 2:
        sys.exit(__doc__)
    main(sys.argv[1])
