"""Texts of the source as nodes of a page: documentation with its links, signatures, and clauses whose words lead to their definitions."""
import re

from docutils import nodes
from sphinx import addnodes

import reader

LINK = re.compile(r"\[`([^`]+)`\](?:\(([^)]+)\))?")
PIECE = re.compile(r"((?:requires|ensures)\*?(?: \w+)?(?= \{))|(\.?[^\W\d][\w'-]*)|([^\w.]+|.)", re.S)
# Names of the standard library that documentation links to, which have no page here.
STANDARD = {"Brand"}
KEYWORDS = set("fn pub self Self mut const impl for where enum struct trait type ghost".split())
# The widest signature that stands on one line.
WIDTH = 88


def role_of(match, path, within):
    """A link of a documentation as a role, if it leads to an item of the repository. One to the standard library is its text."""
    text, target = match.group(1), match.group(2) or match.group(1)
    owner, _, name = target.rpartition("::")
    page = within if owner == "Self" else reader.page_of(owner, path)
    is_ours = not owner or owner.partition("::")[0] in reader.CONTRACTS.below_each()
    if page or is_ours and name in reader.functions():
        return f"{{rattle:call}}`{text} <{f'{page}::{name}' if page else name}>`"
    page = reader.page_of(target, path)
    is_told = not is_ours or target in STANDARD or target.startswith("http")
    return f"`{text}`" if is_told and not page else f"{{rattle:type}}`{text} <{page or target}>`"


def markdown(paragraphs, path="", within=""):
    """Paragraphs of a documentation of a file, with roles for its links. What is within a type may name the calls of `Self`."""
    return "\n\n".join(LINK.sub(lambda it: role_of(it, path, within), paragraph) for paragraph in paragraphs)


def xref(kind, target, text, within=""):
    """A link by name, with its text."""
    options = {"refdomain": "rattle", "reftype": kind, "reftarget": target, "refexplicit": True, "refwarn": True, "rattle:within": within}
    return addnodes.pending_xref("", nodes.inline("", text), **options)


def source_link(item):
    """The link to the line of an item in its file."""
    found = xref("source", f"{item.file}#L{item.line}", "")
    found[0] = nodes.inline("", "[source]", classes=["viewcode-link"])
    return found


def signature_text(lines):
    """A signature, with a line for each parameter where it is long."""
    text = reader.CONTRACTS.short(reader.CONTRACTS.head_of(lines))
    if len(text) <= WIDTH or "(" not in text:
        return text
    start = 0
    if re.match(r"fn \w+<", text):
        start = text.index("<")
        start += next(reader.CONTRACTS.ends_of(text[start:]))
    start = text.index("(", start)
    end = start + next(reader.CONTRACTS.ends_of(text[start:]))
    return f"{text[: start + 1]}\n    " + ",\n    ".join(split_at_commas(text[start + 1 : end])) + ",\n" + text[end:]


def split_at_commas(text):
    """The parts of a list, without those commas that stand in brackets."""
    places = [-1, *(at for at in reader.CONTRACTS.ends_of(text) if text[at] == ","), len(text)]
    return [text[a + 1 : b].strip() for a, b in zip(places, places[1:])]


def signature_nodes(text, path, name=""):
    """A signature of a file as nodes: its name, its keywords, and links to the types that it has."""
    for word, other in re.findall(r"(\w+(?:::\w+)*)|(\W+)", text):
        page = reader.page_of(word, path) if word and word != name else None
        if word and word == name:
            yield addnodes.desc_name("", name)
            name = ""
        elif word in KEYWORDS:
            yield addnodes.desc_sig_keyword("", word)
        else:
            yield xref("type", page, word) if page else nodes.Text(word or other)


def clause_nodes(path, text):
    """Clauses or a definition as nodes: each word leads to its definition, and each form of the library shows what it means."""
    for label, name, other in PIECE.findall(text):
        if label:
            yield nodes.strong("", label.partition(" ")[0])
            yield nodes.Text(label[len(label.partition(" ")[0]) :])
        else:
            yield word_node(path, name) if name else nodes.Text(other)


def word_node(path, name):
    """A name of a clause: a link to the word or the type that it means, a form that is told on hover, or its text."""
    word = None if name.startswith(".") else reader.word_at(path, name)
    if word:
        return xref("word", f"{word.crate}.{word.module}.{word.name}", name)
    page = None if name.startswith(".") else reader.type_at(path, name)
    if page:
        return xref("type", page, name)
    told = reader.forms().get(name) if name in reader.imports_of(path) else None
    return nodes.abbreviation("", name, explanation=told.replace("`", "")) if told else nodes.Text(name)


def folded(title, path, text):
    """A text of clauses that opens when its title is pressed."""
    opened = f'<details class="clauses"><summary>{title}</summary>'
    return [nodes.raw("", opened, format="html"), clause_block(path, text), nodes.raw("", "</details>", format="html")]


def clause_block(path, text):
    """A block of clauses or of a definition. Its source differs from its text, so that Sphinx keeps its links and gives it no colours."""
    return nodes.literal_block(f"{text}\n", "", *clause_nodes(path, text), classes=["clauses"])


def code_block(text, language="rattle"):
    """A text of a program."""
    return nodes.literal_block(text, text, language=language)
