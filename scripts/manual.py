"""Prints the manual page of `dss`, its completions for bash, or the manual page of the gateway.

They are made from the --help of the program, and the pages also from docs/OPERATE.md, gateway/README.md and gateway/MAP.md.

  manual.py page|completions|gateway PROGRAM VERSION"""
import pathlib
import re
import subprocess
import sys

TOP = pathlib.Path(__file__).resolve().parent.parent
ABOUT = "discovery and synchronization service for drone traffic"
# The parts of a document that repeat the --help of the program, and other comments.
REPEATED, COMMENT = re.compile(r"(?s)<!-- (?:commands|options): .*?<!-- end -->\n"), re.compile(r"<!-- .*? -->\n")
PICTURE, FENCED = re.compile(r"!\[[^\]]*\]\([^)]*\)\n"), re.compile(r"(?ms)^```\w*\n(.*?)^```\n")


def help_of(program, *words):
    return subprocess.run([program, *words, "--help"], capture_output=True, text=True, check=True).stdout


def section(text, name):
    """Returns the lines of a section of a help text."""
    found = re.search(rf"^{name}:\n((?:[ \t].*\n|\n(?=[ \t]))*)", text + "\n", re.M)
    return found[1].splitlines() if found else []


def commands(program):
    """Returns the commands of the program except `help`."""
    names = [it.split()[0] for it in section(help_of(program), "Commands") if re.match(r"  \w", it)]
    return [it for it in names if it != "help"]


def options(text):
    """Returns the options of a help text, each with whether it takes a file or a directory."""
    return {it[1]: it[2] in ("FILE", "DIR") for line in section(text, "Options") if (it := re.search(r"(--[\w-]+)(?: <(\w+)>)?", line))}


def plain(text):
    """Returns the text of a document with the special characters of manual pages escaped."""
    text = text.replace("\\", "\\e").replace("-", "\\-")
    return "\\&" + text if text.startswith((".", "'")) else text


def words_of(text):
    """Converts a line of Markdown: code and strong text become bold, and a link becomes its text."""
    text = re.sub(r"\[([^\]]*)\]\([^)]*\)", r"\1", text)
    parts = re.split(r"\*\*|`", re.sub(r"\*\*(.*?)\*\*", lambda it: f"**{it[1].replace('`', '')}**", text))
    return "".join(rf"\fB{plain(it)}\fR" if at % 2 else plain(it) for at, it in enumerate(parts))


def as_it_is(lines):
    return [".PP", ".RS 4", ".nf", *map(plain, lines), ".fi", ".RE"]


def page_of(document):
    """Converts a Markdown document to sections of a manual page, without its title and the text above its first heading."""
    page, block = [], []
    document = PICTURE.sub("", COMMENT.sub("", REPEATED.sub("", document)))
    document = FENCED.sub(lambda it: re.sub(r"(?m)^", "    ", it[1].rstrip("\n")) + "\n", document)
    for line in [*document.partition("\n## ")[2].splitlines(), ""]:
        if block and line.startswith("    "):
            block.append(line[4:])
            continue
        if block and not line.strip():
            block.append("")
            continue
        if block:
            while block and not block[-1]:
                block.pop()
            page += as_it_is(block)
            block = []
            page.append(".PP")
        if line.startswith("    "):
            block = [line[4:]]
        elif line.startswith("## ") or not page:
            page.append(f'.SH "{plain(line.removeprefix("## ").replace("`", "").upper())}"')
        elif line.startswith("### "):
            page.append(f'.SS "{plain(line.removeprefix("### ").replace("`", ""))}"')
        elif line.startswith("|"):
            cells = [it.strip() for it in line.strip("|").split(" | ")]
            if not set(line) <= set("|- :"):
                page += [".TP", words_of(cells[0].strip("| ")), words_of("; ".join(it for it in (cell.strip("| ") for cell in cells[1:]) if it)) or "\\&"]
        elif line.startswith("- "):
            page += [".IP \\(bu 2", words_of(line[2:])]
        elif found := re.match(r"(\d+\.) (.*)", line):
            page += [f".IP {found[1]} 4", words_of(found[2])]
        else:
            page.append(words_of(line.strip()) if line.strip() else ".PP")
    return page + (as_it_is(block) if block else [])


def page(program, version):
    lines = [f'.TH DSS 1 "" "dss {version}" "User Commands"', ".SH NAME", f"dss \\- {ABOUT}", ".SH SYNOPSIS"]
    texts = {it: help_of(program, it) for it in commands(program)}
    for text in texts.values():
        usage = re.search(r"^Usage: (.*\n(?: {7}.*\n)*)", text, re.M)
        lines += [it for line in (usage[1].splitlines() if usage else []) for it in (plain(line.strip()), ".br")]
    lines += [".SH COMMANDS"]
    for name, text in texts.items():
        lines += [f".SS {name}", *as_it_is(text.rstrip("\n").splitlines())]
    lines += page_of((TOP / "docs" / "OPERATE.md").read_text().replace("./dss", "dss"))
    lines += [".SH SEE ALSO", plain("The documents in /usr/share/doc/dss.")]
    return "\n".join(lines) + "\n"


def gateway(program, version):
    lines = [f'.TH DSS-GATEWAY 1 "" "dss {version}" "User Commands"', ".SH NAME"]
    lines += ["dss-gateway \\- interface of ASTM F3548-21 before dss(1)", ".SH SYNOPSIS"]
    said = subprocess.run([program, "--help"], capture_output=True, text=True, check=True).stdout
    lines += as_it_is(re.sub(r"(?m)^gateway", "dss-gateway", said).splitlines())
    lines += [it for name in ("README.md", "MAP.md") for it in page_of((TOP / "gateway" / name).read_text())]
    lines += [".SH SEE ALSO", "dss(1)"]
    return "\n".join(lines) + "\n"


def completions(program, version):
    texts = {it: options(help_of(program, it)) for it in commands(program)}
    files = sorted({option for it in texts.values() for option, takes_file in it.items() if takes_file})
    cases = "\n".join(f"        {name}) words='{' '.join(it)}' ;;" for name, it in texts.items())
    return f"""# Completions for bash of dss {version}, made from its --help.
_dss() {{
    local words='{' '.join([*texts, *options(help_of(program))])}' now=${{COMP_WORDS[COMP_CWORD]}}
    case ${{COMP_WORDS[COMP_CWORD-1]}} in
    {'|'.join(files) or '--none'})
        mapfile -t COMPREPLY < <(compgen -f -- "$now")
        return
        ;;
    esac
    if [ "$COMP_CWORD" != 1 ]; then
        words=--help
        case ${{COMP_WORDS[1]}} in
{cases}
        esac
    fi
    mapfile -t COMPREPLY < <(compgen -W "$words" -- "$now")
    [ "${{#COMPREPLY[@]}}" != 0 ] || mapfile -t COMPREPLY < <(compgen -f -- "$now")
}}
complete -o filenames -F _dss dss
"""


if __name__ == "__main__":
    sys.stdout.write({"page": page, "completions": completions, "gateway": gateway}[sys.argv[1]](*sys.argv[2:]))
