#!/usr/bin/env python3
"""Makes the manual pages and the texts of rb_report of the documents."""
import pathlib
import sys

sys.dont_write_bytecode = True
sys.path[:1] = [str(pathlib.Path(__file__).resolve().parents[2])]

from tests.repository import directives, pages  # noqa: E402


def main() -> None:
    for page in pages.PAGES:
        page.path.parent.mkdir(parents=True, exist_ok=True)
        page.path.write_text(pages.made(page))
    for path, text in directives.sources().items():
        path.write_text(text)


if __name__ == "__main__":
    main()
