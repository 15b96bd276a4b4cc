"""Looks at the pages that tools/html.sh wrote: `html_pages.py FOLDER`, for tests/docs/html.sh."""

import html.parser
import pathlib
import subprocess
import sys
import urllib.parse

TOP = pathlib.Path(__file__).resolve().parents[2]


class Page(html.parser.HTMLParser):
    """What a page links and shows, the places in it, and how many pictures are drawn."""

    def __init__(self, text):
        """Read a page."""
        super().__init__()
        self.links = []
        self.places = set()
        self.drawn = 0
        self.feed(text)

    def handle_starttag(self, tag, attributes):
        """Note a link, a picture or a place."""
        named = dict(attributes)
        self.links.extend(named[word] for word in ("href", "src") if named.get(word))
        self.places.add(named.get("id"))
        self.drawn += tag == "svg"


def documents():
    """Return the paths of the documents that git keeps."""
    words = ["git", "ls-files", "*.md"]
    listed = subprocess.run(words, cwd=TOP, capture_output=True, text=True, check=True).stdout
    return [path for path in listed.split() if path != "tools/speed/page.md"]


def leads(folder, pages, path, link):
    """Say whether a link of a page leads to a file, and to its place if it names one."""
    parts = urllib.parse.urlsplit(link)
    if parts.scheme:
        return True
    named = urllib.parse.unquote(parts.path)
    target = (path.parent / named).resolve() if named else path
    if not target.is_file() or folder not in target.parents:
        return False
    return not parts.fragment or parts.fragment in pages[target].places


def main():
    """Print what failed, and then the counts."""
    folder = pathlib.Path(sys.argv[1]).resolve()
    listed = documents()
    wanted = {folder / path.replace(".md", ".html"): path for path in listed}
    failed = [f"{path} has no page" for page, path in wanted.items() if not page.is_file()]
    texts = {page: page.read_text(encoding="utf-8") for page in wanted if page.is_file()}
    pages = {page: Page(text) for page, text in texts.items()}
    links = [(page, link) for page, found in pages.items() for link in found.links]
    for page, link in links:
        if not leads(folder, pages, page, link):
            failed.append(f"{wanted[page]}: {link} leads nowhere")
    diagrams = 0
    for page, path in wanted.items():
        source = (TOP / path).read_text(encoding="utf-8").count("```mermaid")
        diagrams += source
        if page in pages and pages[page].drawn != source:
            failed.append(f"{path}: {pages[page].drawn} of {source} diagrams are drawn")
    for why in failed:
        print(f"failed: {why}")
    print(len(wanted) + len(links) + diagrams - len(failed), len(failed))


if __name__ == "__main__":
    main()
