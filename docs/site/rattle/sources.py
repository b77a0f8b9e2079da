"""Pages of the files that the site links to, and the colours of Rattle."""
import os

from pygments import highlight
from pygments.formatters import HtmlFormatter
from pygments.lexers import RustLexer, TextLexer, get_lexer_for_filename
from pygments.token import Error, Keyword, Name, Text
from pygments.util import ClassNotFound

import reader

WORDS = {"requires", "ensures", "ghost", "result"}


PAGE = """<!doctype html>
<html lang="en">
<head>
<meta charset="utf-8">
<meta name="viewport" content="width=device-width, initial-scale=1">
<title>{path}</title>
<link rel="stylesheet" href="{up}_static/pygments.css">
<link rel="stylesheet" href="{up}_static/source.css">
</head>
<body>
<script>document.body.dataset.theme = localStorage.getItem("theme") || "auto";</script>
<p><a href="{up}index.html">TreeIndex</a> <code>{path}</code></p>
{body}
</body>
</html>
"""


class RattleLexer(RustLexer):
    """Rust, with the words of contracts. What Rust has no token for is plain text."""

    name = "Rattle"
    aliases = ["rattle"]
    filenames = ["*.rt", "*.antt"]

    def get_tokens_unprocessed(self, text):
        for at, token, value in super().get_tokens_unprocessed(text):
            if value in WORDS and token in Name:
                token = Keyword
            yield at, Text if token in Error else token, value


def lexer_of(path):
    """The lexer for a file, by its name."""
    if path.endswith((".rt", ".antt")):
        return RattleLexer()
    try:
        return get_lexer_for_filename(path)
    except ClassNotFound:
        return TextLexer()


def page_of(path):
    """The page of a file: its text with numbered lines, which links lead to. It stands by itself, without the theme."""
    formatter = HtmlFormatter(linenos="inline", lineanchors="L", anchorlinenos=True, cssclass="highlight")
    body = highlight(reader.text_of(path), lexer_of(path), formatter).replace('id="L-', 'id="L').replace('name="L-', 'name="L').replace('href="#L-', 'href="#L')
    return PAGE.format(path=path, up="../" * (path.count("/") + 1), body=body)


def write_pages(app, failed):
    """Writes the page of each file that some page links to."""
    for path in sorted(getattr(app.env, "rattle_files", ())) if not failed else ():
        to = os.path.join(app.outdir, "source", f"{path}.html")
        os.makedirs(os.path.dirname(to), exist_ok=True)
        with open(to, "w", encoding="utf-8") as page:
            page.write(page_of(path))


def setup(app):
    """Adds the lexer and the pages."""
    for name in ("rattle", "rust", "antt"):
        app.add_lexer(name, RattleLexer)
    app.connect("build-finished", write_pages)
