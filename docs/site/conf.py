"""The configuration of the site. `build` copies the pages that stand to the folder of sources, and runs Sphinx there."""
import os
import re
import sys

import furo

HERE = os.path.dirname(os.path.abspath(__file__))
sys.path.insert(0, HERE)
sys.dont_write_bytecode = True



def dark_colours():
    """The dark colours of the theme, which Debian's build of it leaves out for a system that is dark."""
    with open(os.path.join(os.path.dirname(furo.__file__), "theme", "furo", "static", "styles", "furo.css"), encoding="utf-8") as styles:
        _, _, dark = styles.read().partition('body[data-theme="dark"] {')
    return dict(re.findall(r"--([\w-]+): ([^;]+);", dark.partition("}")[0]))


project = "TreeIndex"
html_title = "TreeIndex"
extensions = ["myst_parser", "sphinx_tabs.tabs", "breathe", "sphinx.ext.autodoc", "rattle"]
root_doc = "index"
exclude_patterns = []
html_theme = "furo"
html_static_path = [os.path.join(HERE, "static"), *filter(None, [os.environ.get("SITE_THEME")])]
html_css_files = ["site.css"]
html_js_files = ["site.js"]
html_copy_source = False
html_show_sphinx = False
html_theme_options = {"navigation_with_keys": True, "dark_css_variables": dark_colours()}
html_search_scorer = os.path.join(HERE, "scorer.js")
html_show_copyright = False
pygments_style = "friendly"
pygments_dark_style = "native"
highlight_language = "text"
myst_heading_anchors = 4
myst_enable_extensions = ["deflist"]
sphinx_tabs_disable_css_loading = True
toc_object_entries_show_parents = "hide"
nitpicky = True
breathe_projects = {"bindings": os.environ.get("SITE_DOXYGEN", "")}
breathe_default_project = "bindings"
breathe_domain_by_extension = {"h": "c", "hpp": "cpp"}
breathe_show_include = False
autodoc_member_order = "bysource"
# Names of the standard libraries of C, C++ and Python, which have no page here.
nitpick_ignore_regex = [
    ("c:identifier", r"u?int\d+_t|size_t|bool"),
    ("cpp:identifier", r"u?int\d+_t|std|std::.*|It|Low|High|Numbers|Call"),
    # Of the C++ header: what it keeps to itself, and names of the C header, which has a page of its own.
    ("cpp:identifier", r"inside|inside::.*|TREE_INDEX_\w+|tree_index_\w+"),
    ("py:.*", r"collections\.abc\..*|typing\..*|object|dict|list|tuple|int|bytes"),
]

# The extension module of Python, built over calls that do nothing, and what `cargo doc` made.
sys.path.insert(0, os.environ.get("SITE_PYTHON", HERE))
html_extra_path = [os.environ["SITE_EXTRA"]] if "SITE_EXTRA" in os.environ else []
