"""The domain `rattle`: types, calls and words of clauses, each with a place on the site, and roles that link to it by name.

A name that no page has is a warning, which the build takes for an error.
"""
import re

from docutils import nodes
from sphinx.domains import Domain, ObjType
from sphinx.roles import XRefRole
from sphinx.util.nodes import make_refnode

import reader

# Where a name is looked for that stands without its type.
USUAL = "TreeIndex"


def plain(text):
    """A text of Markdown without its marks, to be shown on hover."""
    return re.sub(r"\[([^\]]*)\](\([^)]*\))?", r"\1", text).replace("`", "").replace("**", "")


class RattleDomain(Domain):
    """What the pages of the crates declare."""

    name = "rattle"
    label = "Rattle"
    object_types = {it: ObjType(it, it) for it in ("type", "call", "word", "law", "crate")}
    roles = {it: XRefRole() for it in ("type", "call", "word", "law", "crate", "source")}
    initial_data = {"objects": {}, "hovers": {}}
    data_version = 1

    def note(self, kind, name, docname, anchor, hover=""):
        """Keeps where an item stands. The first place of a name stays."""
        self.data["objects"].setdefault((kind, name), (docname, anchor))
        self.data["hovers"].setdefault((kind, name), plain(hover))

    def clear_doc(self, docname):
        """Forgets what a page declared that is read again."""
        gone = [key for key, (doc, _) in self.data["objects"].items() if doc == docname]
        for key in gone:
            del self.data["objects"][key]
            self.data["hovers"].pop(key, None)

    def merge_domaindata(self, docnames, otherdata):
        """Takes over what another process read."""
        for key, place in otherdata["objects"].items():
            if place[0] in docnames:
                self.note(*key, *place, otherdata["hovers"][key])

    def names_of(self, kind, target, within=""):
        """The names that a target may mean, the likeliest first."""
        owner, _, name = target.replace("::", ".").rpartition(".")
        if kind == "type":
            yield reader.page_of(target) or target
        elif kind == "call":
            yield from [f"{reader.page_of(owner) or owner}.{name}"] if owner else [f"{within}.{name}", f"{USUAL}.{name}", name]
        else:
            yield target
        if not owner and kind in ("call", "word"):
            found = [it for of, it in self.data["objects"] if of == kind and it.endswith(f".{name}")]
            if kind == "word" or len(found) == 1:
                yield from sorted(found, key=lambda it: not it.startswith(("tree_model.", "tree_index.")))

    def resolve_xref(self, env, fromdocname, builder, kind, target, node, contnode):
        """The link to an item, or nothing if no page has its name."""
        if kind == "source":
            return link_to_source(builder, fromdocname, target, contnode)
        for name in self.names_of(kind, target, node.get("rattle:within", "")):
            place = self.data["objects"].get((kind, name))
            if place:
                return make_refnode(builder, fromdocname, *place, contnode, self.data["hovers"][(kind, name)] or None)
        return None

    def resolve_any_xref(self, env, fromdocname, builder, target, node, contnode):
        """The links that a name without a role may mean."""
        return []

    def get_objects(self):
        """What the search finds by name."""
        for (kind, name), (docname, anchor) in self.data["objects"].items():
            yield name, name, kind, docname, anchor, {"word": 2, "law": 1}.get(kind, 0)


def link_to_source(builder, docname, target, contnode):
    """The link to a line of a file, whose page the extension makes."""
    path, _, line = target.partition("#")
    if not reader.exists(path):
        return None
    reference = nodes.reference("", "", contnode, internal=True, refuri=builder.get_relative_uri(docname, f"source/{path}") + (f"#{line}" if line else ""))
    builder.env.rattle_files = getattr(builder.env, "rattle_files", set()) | {path}
    return reference


def setup(app):
    """Adds the domain."""
    app.add_domain(RattleDomain)
