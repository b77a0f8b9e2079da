"""The pages that stand, such as README and docs/USING: their links to files, and names in code marks as links to what they name."""
import os
import posixpath
import re

from docutils import nodes
from sphinx.transforms import SphinxTransform

import reader
from .marked import xref

FENCE = re.compile(r"(^```.*?^```$)", re.M | re.S)
LINK = re.compile(r"(?<!!)\[([^\]\n]*)\]\(([^)\s#]+)(#[^)\s]*)?\)")
NAMED = re.compile(r"(?:(\w+)::)?([a-z]\w*)(\(.*\))?$", re.S)
# The pages whose names in code marks are looked up, and those that name what isn't here.
LINKED = ("README", "docs/")
LACKING = ("docs/DIFFERENCES", "docs/work/")
# The pages that speak of the calls of one type.
OWNERS = {"docs/STORE": "TreeStore"}


def told_links(app, docname, source):
    """Makes each link to a file that is no page lead to the page of its text."""
    def told(match):
        text, target, heading = match.groups()
        path = posixpath.normpath(posixpath.join(posixpath.dirname(docname), target))
        if re.match(r"\w+:", target) or path.removesuffix(".md") in app.env.found_docs:
            return match.group()
        if not reader.exists(path):
            path = posixpath.join(path, "README.md")
            name = path.removesuffix(".md")
            return f"[{text}]({posixpath.relpath(path, posixpath.dirname(docname) or '.')})" if name in app.env.found_docs else match.group()
        return f"{{rattle:source}}`{text.replace('`', '')} <{path}>`"

    parts = FENCE.split(source[0])
    source[0] = "".join(part if at % 2 else LINK.sub(told, part) for at, part in enumerate(parts))


class Names(SphinxTransform):
    """Makes names in code marks of the pages that stand lead to the calls and types that they name."""

    default_priority = 400

    def apply(self, **options):
        docname = self.env.docname
        if not docname.startswith(LINKED) or docname.startswith(LACKING):
            return
        for node in list(self.document.findall(nodes.literal)):
            if not isinstance(node.parent, (nodes.reference, nodes.title)) and node.parent.tagname != "pending_xref":
                linked(node, owner_of(node, docname))


def owner_of(node, docname):
    """The type whose calls a page speaks of at a node: that of the page, or of the last heading that names one."""
    if docname in OWNERS:
        return OWNERS[docname]
    while node is not None:
        if isinstance(node, nodes.section):
            words = node[0].astext().lower().split()
            if "set" in words:
                return "TreeSet"
        node = node.parent
    return "TreeIndex"


def linked(node, owner):
    """Makes a name in code marks a link, if it is one of a type or a call."""
    text = node.astext()
    found = NAMED.match(text)
    if reader.page_of(text):
        replace(node, xref("type", text, ""))
    elif found and reader.page_of(found.group(1) or ""):
        replace(node, xref("call", f"{found.group(1)}::{found.group(2)}", ""))
    elif found and (found.group(3) or "_" in text) and is_call(owner, found.group(2)):
        replace(node, xref("call", found.group(2), "", owner))
    elif found and found.group(3) and in_table_of_calls(node):
        replace(node, xref("call", found.group(2), "", owner))


def is_call(owner, name):
    """Whether a type has a call of a name, or a function has it."""
    item = reader.types()[owner]
    return name in reader.functions() or any(it.name == name for it in item.calls) or any(name in it.functions for it in item.impls)


def in_table_of_calls(node):
    """Whether a node stands in the first cell of a row of a table whose first head is `Call`."""
    while node is not None and not isinstance(node, nodes.entry):
        node = node.parent
    if node is None or node.parent.index(node):
        return False
    table = node.parent.parent.parent
    head = next(iter(table.findall(nodes.thead)), None)
    return head is not None and head.astext().startswith("Call")


def replace(node, link):
    """Puts a link in the place of a node, which becomes its text."""
    node.parent.replace(node, link)
    link.clear()
    link += node


def setup(app):
    """Adds what changes the pages that stand."""
    app.connect("source-read", told_links)
    app.add_transform(Names)
