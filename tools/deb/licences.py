"""Makes the copyright file, in Debian's machine-readable form, version 1.0.

The binaries contain libraries of the kit. Each library's licence is in its folder of the kit; one
that has no file there is named in a comment."""
import re
import textwrap
from pathlib import Path

FORM = "https://www.debian.org/doc/packaging-manuals/copyright-format/1.0/"
KINDS = {  # licences by their first words
    "Permission is hereby granted, free of charge, to any person obtaining a copy of this software": "Expat",
    "Apache License Version 2.0": "Apache-2.0",
    "Redistribution and use in source and binary forms": "BSD-3-Clause",
    "UNICODE LICENSE V3": "Unicode-3.0",
}
HOLDER = re.compile(r"^\s*Copyright (?:\(c\)|©) *(.*\S)$", re.M)
BY_REFERENCE = "On Debian systems the text of this licence is /usr/share/common-licenses/Apache-2.0."


def libraries_of(programs, crates, kit):
    """Returns the kit's libraries that the programs contain, by crates.txt and the libraries' own lists."""
    lines = [it.split("#")[0].partition(":") for it in crates.splitlines()]
    uses = {head.split()[0]: below.split() for head, _, below in lines if head.strip()}
    found, left = set(), list(programs)
    while left:
        name = left.pop()
        if name not in found:
            found.add(name)
            left += uses[name] if name in uses else below(kit, name)
    return sorted(found - set(uses))


def below(kit, library):
    """Returns the libraries that a library of the kit uses."""
    with open(kit / f"rlibs/{library}.rlib/format", encoding="utf-8") as lines:
        return [it.split()[1] for it in lines if it.startswith("dep ")]


def kind_of(text):
    """Returns a licence's short name and its words, from those that distinguish it."""
    for words, kind in KINDS.items():
        at = re.search(r"\s+".join(map(re.escape, words.split())), text)
        if at:
            return kind, text[at.start() :].strip()
    raise ValueError(f"no known licence: {text[:60]!r}")


def indented(text):
    """Returns the lines of a field of several lines; an empty one becomes a full stop."""
    return "".join(f" {it.rstrip()}\n" if it.strip() else " .\n" for it in text.strip().splitlines())


def stanza(files, texts, name):
    """Returns the stanza for some files: the holders that their licences name, and the licences."""
    holders = list(dict.fromkeys(it for text in texts for it in HOLDER.findall(text)))
    kinds = sorted({kind_of(it)[0] for it in texts}, key=["Expat", "Apache-2.0", "BSD-3-Clause", "Unicode-3.0"].index)
    words = " or ".join(it for it in kinds if it != "Unicode-3.0")
    words = ", and ".join(it for it in (words, "Unicode-3.0" if "Unicode-3.0" in kinds else "") if it)
    return f"Files: {files}\nCopyright:\n{indented(chr(10).join(holders or [f'the authors of {name}']))}License: {words}\n"


def copyright_of(top, programs, kit):
    """Returns the copyright file of a package with these programs, built by this kit."""
    own = [(top / f"LICENSE-{it}").read_text(encoding="utf-8") for it in ("MIT", "APACHE")]
    libraries = libraries_of(programs, (top / "crates.txt").read_text(encoding="utf-8"), kit)
    files = {it: sorted((kit / f"rattle/{it}").glob("LICENSE*")) for it in libraries}
    texts = {it: [path.read_text(encoding="utf-8") for path in paths] for it, paths in files.items() if paths}
    bare = ", ".join(it for it in libraries if it not in texts)
    comment = f"The binaries contain libraries of the kit that built them. These have no licence file of their own: {bare}."
    comment = "\n ".join(textwrap.wrap(comment, 76))
    licences = {kind: words for text in (*own, *(it for them in texts.values() for it in them)) for kind, words in [kind_of(text)]}
    licences |= {"Apache-2.0": BY_REFERENCE, "Expat": kind_of(own[0])[1]}
    stanzas = [
        f"Format: {FORM}\nUpstream-Name: Numzela\nComment: {comment}\n",
        stanza("*", own, "Numzela"),
        *(stanza(f"kit/{name}/*", them, name) for name, them in texts.items()),
        *(f"License: {kind}\n{indented(words)}" for kind, words in sorted(licences.items())),
    ]
    return "\n".join(stanzas)
