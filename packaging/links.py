#!/usr/bin/env python3
"""Leaves the links of installed pages that lead to an installed file, and makes plain text of the others.

    packaging/links.py FOLDER
"""
import pathlib
import re
import sys

folder = pathlib.Path(sys.argv[1])


def mended(page, text):
    """The text of a page without its links to files that are not installed."""
    def of_link(link):
        path = link[2].partition("#")[0]
        return link[0] if "://" in path or not path or (page.parent / path).exists() else link[1]

    return re.sub(r"\[([^\]]*)\]\(([^)\s]+)\)", of_link, text)


for it in sorted(folder.rglob("*.md")):
    it.write_text(mended(it, it.read_text()))
