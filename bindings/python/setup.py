"""Builds the extension over libtree_index_c.a.

TREE_INDEX_LIB_DIR and TREE_INDEX_INCLUDE_DIR name the folders of the archive and of tree_index.h, as `make install` of
bindings/c fills them. Without them those of the checkout are taken.
"""
import os
import pathlib
import platform

from setuptools import Extension, setup

BINDINGS = pathlib.Path(__file__).resolve().parent.parent
INCLUDE = os.environ.get("TREE_INDEX_INCLUDE_DIR", str(BINDINGS / "c"))
FOLDER = os.environ.get("TREE_INDEX_LIB_DIR", str(BINDINGS / "dist" / f"{platform.machine()}-linux-gnu"))
ARCHIVE = os.path.join(FOLDER, "libtree_index_c.a")
flags = os.environ.get("TREE_INDEX_CFLAGS", "").split()

setup(
    ext_modules=[
        Extension(
            "tree_index._core",
            ["src/tree_index/_core.c"],
            include_dirs=[INCLUDE],
            extra_objects=[ARCHIVE],
            # An extension that was built before is built again if one of these is newer.
            depends=[ARCHIVE, os.path.join(INCLUDE, "tree_index.h")],
            extra_compile_args=["-std=c99", "-Wall", "-Wextra", "-Wno-missing-field-initializers", "-Wno-cast-function-type", *flags],
            extra_link_args=flags,
            define_macros=[("Py_LIMITED_API", "0x03080000")],
            py_limited_api=True,
        )
    ],
    options={"bdist_wheel": {"py_limited_api": "cp38"}},
)
