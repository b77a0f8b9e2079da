"""The menu beside each page. The theme would make it anew for each page, which takes half of a build, so it is made once, and each
page marks its own place in it."""
from bs4 import BeautifulSoup
from furo.navigation import get_navigation_tree
from sphinx.environment.adapters.toctree import TocTree
from sphinx.util.osutil import relative_uri


class Menu:
    """The menu of all pages, whose links lead from the first page."""

    def __init__(self, app):
        tree = TocTree(app.env).get_toctree_for(app.config.root_doc, app.builder, False, titles_only=True, maxdepth=-1, includehidden=True)
        self.soup = BeautifulSoup(get_navigation_tree(app.builder.render_partial(tree)["fragment"]), "html.parser")
        self.links = [(it, it["href"]) for it in self.soup.find_all("a")]

    def of(self, page):
        """The menu with the links of a page, which is open where that page stands."""
        for link, target in self.links:
            link["href"] = relative_uri(page, target) or "#"
        marked = [mark for link, target in self.links if target == page for mark in marks_of(link)]
        kept = [(tag, name, tag.get(name)) for tag, name, _ in marked]
        for tag, name, value in marked:
            tag[name] = value
        text = str(self.soup)
        for tag, name, value in kept:
            if value is None:
                del tag[name]
            else:
                tag[name] = value
        return text


def marks_of(link):
    """What marks the place of a link: each part of the menu that it is in, with an attribute and its value."""
    item = link.find_parent("li")
    for tag in (link, *link.parents):
        if tag.name in ("a", "ul", "li"):
            yield tag, "class", [*tag.get("class", []), "current", *(["current-page"] if tag is item else [])]
        for box in tag.find_all("input", recursive=False) if tag.name == "li" else ():
            yield box, "checked", ""


def leave_out(app, page, template, context, doctree):
    """Gives the theme no menu to make."""
    context["toctree"] = lambda **_: ""


def put_in(app, page, template, context, doctree):
    """Gives a page its menu."""
    if not hasattr(app, "rattle_menu"):
        app.rattle_menu = Menu(app)
    context["furo_navigation_tree"] = app.rattle_menu.of(app.builder.get_target_uri(page))


def setup(app):
    """Puts what makes the menu around what the theme does, whose priority is 500."""
    app.connect("html-page-context", leave_out, priority=400)
    app.connect("html-page-context", put_in, priority=600)
