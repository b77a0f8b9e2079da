"""A Sphinx extension that shows the public items of the crates, as a caller sees them, from their source."""
from . import domain, menu, pages, shown, sources, standing


def setup(app):
    """Adds the domain, its pages, the examples and the pages of source to a site."""
    for part in (domain, menu, pages, shown, sources, standing):
        part.setup(app)
    return {"version": "1", "parallel_read_safe": False, "parallel_write_safe": False}
