"""Changes pages and examples for a computer that has the package."""
import posixpath
import re
import textwrap

LINK = re.compile(r"(!?)\[((?:[^\[\]]|\[[^\]]*\])*)\]\((?!\w+:)([^)#\s]*)(#[^)\s]*)?\)")
BUILT = re.compile(r"(?:\./)?crates/(\w+)/out/\1\b")
SCRIPT = re.compile(r"(?<![\w./])tools/(fcc|elf2img)\b(?!/)")
PLACES = {  # of the programs and scripts that the units name
    r"/usr/local/bin/(fcd|fcreq)\b": r"/usr/bin/\1",
    r"/usr/local/lib/numzela/(restore|bridge)\.sh": r"/usr/lib/numzela/\1.sh",
}


def scripts(text):
    """Returns a text with the commands of the installed scripts for C."""
    return SCRIPT.sub(r"\1", text)


def commands(text):
    """Returns a text with the commands of the installed programs and scripts for C."""
    return scripts(BUILT.sub(r"\1", text))


def page(text, name, present):
    """Returns the page `name` with the links to the files in `present`, and with the text alone of
    all others."""
    def kept(link):
        target = posixpath.normpath(posixpath.join(posixpath.dirname(name), link[3])) if link[3] else name
        is_there = target in present or any(it.startswith(target + "/") for it in present)
        return link[0] if is_there else link[2]

    return commands(LINK.sub(kept, text))


def unit(text):
    """Returns a unit for systemd that names the package's programs, without the comment on their
    place."""
    text = re.sub(r"^#\n# Put .*\n(?:# .*\n)*", "", text, flags=re.M)
    for old, new in PLACES.items():
        text = re.sub(old, new, text)
    return text


def installed_unit(text):
    """Returns the server's unit, with its manual page."""
    return unit(text).replace("[Unit]\n", "[Unit]\nDocumentation=man:fcd(1)\n")


def changelog(text, name, version, maintainer, date):
    """Returns a changelog in Debian's form: an entry for the version, an item for each of its groups.

    A group is a heading such as `### Added` in the version's section. Its item has the subjects of
    the group's entries: the text in bold at their start."""
    own = re.search(rf"^## \[{re.escape(version)}\].*\n((?:(?!## ).*\n)*)", text, re.M)
    if not own:
        raise ValueError(f"CHANGELOG.md has no section {version}")
    items = ""
    for heading, entries in re.findall(r"^### (.*)\n((?:(?!### ).*\n?)*)", own[1], re.M):
        subjects = [it.replace("`", "").rstrip(".") for it in re.findall(r"^- \*\*(.*?)\*\*", entries, re.M)]
        item = f"* {heading}: {', '.join(subjects)}."
        items += textwrap.fill(item, 78, initial_indent="  ", subsequent_indent="    ") + "\n"
    return f"{name} ({version}) unstable; urgency=medium\n\n{items}\n -- {maintainer}  {date}\n"
