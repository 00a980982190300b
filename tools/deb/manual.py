"""Makes manual pages for section 1 from the output of `--help` and from docs/COMMANDS.md.

A page has the summary, the usage, the options and the notes of `--help`, also those of each
subcommand. Its DESCRIPTION consists of the sections of docs/COMMANDS.md whose heading begins with
the program's name; for a program without one, of the notes."""
import re
from typing import NamedTuple

LISTS = re.compile(r"(Commands|Arguments|Options|positional arguments|options|optional arguments):")
ITEM = re.compile(r" {2}(?: {4}(?=-))?(\S.*?)(?: {2,}(.*))?")
MARKED = re.compile(r"^([-*]|\d+\.) +", re.M)  # an item of a list
STATUS = "Exit status: "


class Help(NamedTuple):
    """The content of `--help`: the summary, the usage, items by heading, and the other
    paragraphs."""

    summary: str
    usage: str
    lists: dict
    notes: list


def escaped(text):
    """Returns plain text for roff, in which no backslash, hyphen or control line is an
    instruction."""
    return re.sub(r"^([.'])", r"\\&\1", text.replace("\\", r"\e").replace("-", r"\-"), flags=re.M)


def inline(text):
    """Returns a text of Markdown for roff: code and strong text in bold, links by their text."""
    text = re.sub(r"\[((?:[^\[\]]|\[[^\]]*\])*)\]\([^)]*\)", r"\1", " ".join(text.split()))
    parts = re.split(r"(`[^`]*`|\*\*.*?\*\*)", text)
    return escaped("".join(f"\0{it.strip('`*')}\1" if it[:1] in ("`", "*") else it for it in parts)).replace("\0", r"\fB").replace("\1", r"\fR")


def example(lines):
    """Returns lines that roff leaves unchanged."""
    return [".PP", ".RS 4", ".EX", *map(escaped, lines), ".EE", ".RE"]


def table(lines):
    """Returns a table as a list of terms: the first cell is the term; each of several others has
    its heading."""
    rows = [[it.strip().replace(r"\|", "|") for it in re.split(r"(?<!\\)\|", line)[1:-1]] for line in lines]
    made = []
    for term, *cells in rows[2:]:
        named = zip(rows[0][1:], cells)
        text = cells[0] if len(cells) == 1 else " ".join(f"{head}: {cell}." for head, cell in named)
        made += [".TP", inline(term), inline(text) or r"\&"]
    return made


def blocks_of(text):
    """Returns the blocks of a text of Markdown, separated by blank lines or fences, each a list of
    lines."""
    found, is_open, is_fenced = [], False, False
    for line in text.splitlines():
        is_fence = line.startswith("```")
        is_begun = is_open and not (is_fence and not is_fenced)
        if not line.strip() and not is_fenced:
            is_open = False
        elif is_begun:
            found[-1].append(line)
        else:
            found.append([line])
        is_fenced ^= is_fence
        is_open = is_fenced or bool(line.strip()) and not is_fence
    return found


def block(lines):
    """Returns a block of Markdown for roff."""
    if lines[0].startswith("```"):
        return example([it for it in lines if not it.startswith("```")])
    if lines[0].startswith("|"):
        return table(lines)
    if lines[0].startswith("#"):
        return [".PP", rf"\fI{escaped(lines[0].lstrip('# ').replace('`', ''))}\fR"]
    if lines[0].startswith("    ") or all(it.startswith("  ") for it in lines):
        return example([it.strip() for it in lines])
    if MARKED.match(lines[0]):
        parts = MARKED.split("\n".join(lines))[1:]
        signs = [it if it[0].isdecimal() else r"\(bu" for it in parts[::2]]
        return [line for sign, text in zip(signs, parts[1::2]) for line in (f".IP {sign} 4", inline(text))]
    return [".PP", inline(" ".join(lines))]


def roff(text):
    """Returns a text of Markdown for roff."""
    return [line for it in blocks_of(text) for line in block(it)]


def items_of(lines):
    """Returns the items of a list of `--help`: each a term and its text."""
    items = []
    for line in lines:
        begun = ITEM.fullmatch(line)
        if begun:
            items.append((begun[1], begun[2] or ""))
        else:
            items[-1] = (items[-1][0], f"{items[-1][1]} {line.strip()}".strip())
    return items


def help_of(text):
    """Returns the content of a text of `--help`, in the layout of clap or Python's argparse."""
    parts = ["\n".join(it) for it in blocks_of(text)]
    usage = next(it for it in parts if re.match("usage: ", it, re.I))
    lists = {it.splitlines()[0].rstrip(":").lower(): items_of(it.splitlines()[1:]) for it in parts if LISTS.match(it)}
    others = [it for it in parts if it != usage and not LISTS.match(it)]
    return Help(others[0], " ".join(usage.split()[1:]), lists, others[1:])


def sections_of(program, page):
    """Returns the program's sections of a page: each a heading and a text."""
    parts = re.split(r"^## +(.*)\n", page, flags=re.M)[1:]
    named = [(head.replace("`", ""), text) for head, text in zip(parts[::2], parts[1::2])]
    return [(head, text) for head, text in named if re.match(rf"{program}\b", head)]


def options(said, seen):
    """Returns the arguments, options and notes of a program or a subcommand."""
    items = [it for head in ("arguments", "positional arguments", "options", "optional arguments") for it in said.lists.get(head, [])]
    listed = [line for term, text in items for line in (".TP", rf"\fB{escaped(term)}\fR", inline(text) or r"\&")]
    return [*listed, *notes(said, seen)]


def notes(said, seen):
    """Returns the notes of `--help` that `seen` lacks, without that on exit statuses."""
    found = [it for it in said.notes if not it.startswith(STATUS) and it not in seen]
    seen.update(found)
    return [line for it in found for line in block(it.splitlines())]


def statuses(helps):
    """Returns the text on exit statuses, for a program or its subcommands."""
    said = {}
    for name, it in helps.items():
        for note in it.notes:
            if note.startswith(STATUS):
                said.setdefault(inline(note.removeprefix(STATUS)), []).append(name)
    return [line for text, names in said.items() for line in (".TP", rf"\fB{', '.join(names)}\fR", text)]


def as_phrase(summary):
    """Returns a summary without its first capital letter and its full stop, for the section
    NAME."""
    first, _, rest = summary.rstrip(".").partition(" ")
    return f"{first.lower() if first[1:] == first[1:].lower() else first} {rest}"


def used(name, usage):
    """Returns a usage line, with its program in bold."""
    return rf"\fB{escaped(name)}\fR{escaped(usage.removeprefix(name))}"


def parts(named):
    """Returns parts of a section, each with its heading if there are several."""
    return [line for head, lines in named for line in ([f".SS {escaped(head)}"] if len(named) > 1 else []) + lines]


def manual(program, helps, page, version, day, others):
    """Returns a program's manual page.

    `helps` has the content of `--help`, of each subcommand under `program subcommand` and then of
    the program; `page` is the text of docs/COMMANDS.md, and `others` are the related programs."""
    described, seen = sections_of(program, page), set()
    usages = [(name, it.usage) for name, it in helps.items() if name != program or len(helps) == 1]
    lines = [
        f'.TH {program.upper()} 1 {day} "Numzela {version}" Numzela',
        ".SH NAME",
        rf"{program} \- {inline(as_phrase(helps[program].summary))}",
        ".SH SYNOPSIS",
        *(line for it in usages for line in (".PP", used(*it))),
        ".SH DESCRIPTION",
        *(parts([(head, roff(text)) for head, text in described]) if described else notes(helps[program], seen)),
        ".SH OPTIONS",
        *parts([(name, options(it, seen)) for name, it in helps.items()]),
        *([".SH EXIT STATUS", *statuses(helps)] if statuses(helps) else []),
        ".SH SEE ALSO",
        ", ".join(rf"\fB{it}\fR(1)" for it in others if it != program) + ",",
        r"\fI/usr/share/doc/numzela/README.md\fR",
    ]
    return "\n".join(lines) + "\n"
