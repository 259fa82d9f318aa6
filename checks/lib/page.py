"""Pages of der_dump --html: page.py FOLDER NAME.. compares NAME.html with NAME.dump and the bytes of the document."""
import base64
import hashlib
import html.parser
import pathlib
import re
import sys

TAGS = {"html", "head", "meta", "title", "style", "body", "section", "div", "details", "summary", "p", "pre", "script"}


class Page(html.parser.HTMLParser):
    """The lines and the bytes of a page."""

    def __init__(self):
        super().__init__()
        self.lines, self.octets, self.inside, self.wrong, self.open = [], "", "", [], 0
        self.policy, self.scripts = "", []

    def handle_starttag(self, tag, attrs):
        if tag not in TAGS:
            self.wrong.append(f"the tag {tag}")
        for name, value in attrs:
            if name.startswith("on") or (name.startswith("data-") and not value.isdigit()):
                self.wrong.append(f"the attribute {name}={value}")
        self.open += tag == "details"
        if ("http-equiv", "Content-Security-Policy") in attrs:
            self.policy = dict(attrs)["content"]
        if tag == "script":
            self.scripts.append("")
        if tag in ("summary", "p"):
            self.lines.append("")
        self.inside = tag

    def handle_endtag(self, tag):
        self.open -= tag == "details"
        self.inside = ""

    def handle_data(self, data):
        if self.inside in ("summary", "p"):
            self.lines[-1] += data
        elif self.inside == "pre":
            self.octets += data
        elif self.inside == "script":
            self.scripts[-1] += data

    def allows_one_script(self):
        """Whether the policy allows the one script of the page, by its hash, and no other."""
        allowed = re.search(r"script-src ([^;]*)", self.policy)
        hashes = [base64.b64encode(hashlib.sha256(it.encode()).digest()).decode() for it in self.scripts]
        wanted = [f"'sha256-{it}'" for it in hashes]
        return len(wanted) == 1 and allowed is not None and allowed[1].split() == wanted and "'none'" in self.policy


def document(name):
    """The bytes of the document in the file."""
    octets = name.read_bytes()
    if name.suffix != ".pem":
        return octets
    return base64.b64decode(re.sub(rb"-----.*?-----", b"", octets))


def main():
    folder, names = pathlib.Path(sys.argv[1]), sys.argv[2:]
    wrong = []
    for name in names:
        page = Page()
        page.feed((folder / f"{name}.html").read_text())
        wanted = (folder / f"{name}.dump").read_text().splitlines()
        if page.lines != wanted:
            wrong.append(f"{name}: {len(page.lines)} lines, not those of the dump")
        if bytes.fromhex(page.octets) != document(folder / name):
            wrong.append(f"{name}: other bytes")
        if page.open != 0:
            wrong.append(f"{name}: {page.open} folds are open")
        if not page.allows_one_script():
            wrong.append(f"{name}: its policy does not allow its one script alone")
        wrong += [f"{name}: {what}" for what in page.wrong]
    print(*wrong, sep="\n", end="\n" if wrong else "")
    print(f"page: {len(names)} pages, {len(wrong)} wrong")
    sys.exit(bool(wrong))


if __name__ == "__main__":
    main()
