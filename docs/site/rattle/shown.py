"""Examples of programs of the repository: an item of a file, and the same in several languages as tabs.

    ```{rattle:shown} crates/usage/src/book.rt pub fn cancel
    ```

    ```{rattle:languages} remove_range
    ```

docs/site/examples.txt has the tabs by that name.
"""
import functools

import reader
from .pages import Page

# What begins so is a part of a file, and not a text.
FOLDERS = ("crates/", "bindings/")
# The programs that have the examples of the tasks, which are named by their file alone.
TASKS = "bindings/programs/tasks/"


@functools.lru_cache(None)
def examples():
    """The lines of the tabs of each example."""
    blocks = [it.splitlines() for it in reader.text_of("docs/site/examples.txt").split("\n\n")]
    return {name: lines for name, *lines in blocks[1:]}


class Shown(Page):
    """An item of a file: its path, and how the item begins."""

    final_argument_whitespace = True

    def run(self):
        path, _, start = self.arguments[0].partition(" ")
        return self.shown(path, start)


class Languages(Page):
    """The same example in several languages, as tabs."""

    def run(self):
        lines, name = ["`````{tabs}"], self.arguments[0]
        if name not in examples():
            raise self.error(f"no example is named {name}")
        for line in examples()[name]:
            language, _, told = line.partition(": ")
            lines += [f"````{{group-tab}} {language}", *self.tab(told), "````"]
        return self.parsed("\n".join([*lines, "`````"]))

    def tab(self, told):
        """The lines of a tab: one or more items of files, or a text."""
        for item in told.split(" | "):
            item = TASKS + item if item.startswith(("tasks.", "store.")) else item
            yield from [f"```{{rattle:shown}} {item}", "```"] if item.startswith(FOLDERS) else [item]
            yield ""


def setup(app):
    """Adds the directives."""
    app.add_directive_to_domain("rattle", "shown", Shown)
    app.add_directive_to_domain("rattle", "languages", Languages)
