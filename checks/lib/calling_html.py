"""One page of HTML with all types and calls, for checks/run calling: it needs no other file, and no network."""
import base64
import hashlib
import html
import pathlib
import re

TEMPLATE = pathlib.Path(__file__).with_name("calling.html")
SPAN = re.compile(r"`([^`]+)`|\*\*(.+?)\*\*|\[([^\]]*)\]\(([^)\s]+)\)")
SCRIPT = re.compile(r"<script>(.*?)</script>", re.S)


def anchor(title):
    """The name of a heading in links."""
    return re.sub(r"[^\w\- ]", "", title.lower()).replace(" ", "-")


def escaped(text):
    return html.escape(text, quote=False)


def inline(text):
    """Code spans, bold words and links. What a link to another file names stands here without the link."""
    made, at = [], 0
    for found in SPAN.finditer(text):
        code, bold, words, target = found.groups()
        made.append(escaped(text[at:found.start()]))
        at = found.end()
        if code:
            made.append(f"<code>{escaped(code)}</code>")
        elif bold:
            made.append(f"<strong>{inline(bold)}</strong>")
        else:
            heading = re.match(r"(?:calling/[\w-]+\.md)?(#.+)", target)
            made.append(f'<a href="{heading[1]}">{inline(words)}</a>' if heading else inline(words))
    return "".join(made) + escaped(text[at:])


def code(lines, kind="code"):
    return f'<pre class="{kind}">{escaped(chr(10).join(lines))}</pre>\n' if lines else ""


def table(lines):
    rows = [[inline(it.strip()) for it in line.strip("|").split("|")] for line in lines]
    head = "".join(f"<th>{it}</th>" for it in rows[0])
    body = "".join("<tr>" + "".join(f"<td>{it}</td>" for it in row) + "</tr>\n" for row in rows[2:])
    return f'<table>\n<tr>{head}</tr>\n{body}</table>\n'


def paragraph(lines):
    """A paragraph, a heading, a list, a table, or indented code."""
    if lines[0].startswith("## "):
        title = lines[0][3:]
        return f'<h2 id="{anchor(title)}">{inline(title)}</h2>\n'
    if lines[0].startswith("|"):
        return table(lines)
    if all(line.startswith("    ") for line in lines):
        return code([line[4:] for line in lines])
    text = "\n".join(lines)
    if text.startswith("- "):
        items = "".join(f"<li>{inline(it)}</li>\n" for it in re.split(r"\n- ", text[2:]))
        return f"<ul>\n{items}</ul>\n"
    return f"<p>{inline(text)}</p>\n"


def blocks(text):
    """A part of a page as HTML."""
    made = []
    for part in re.split(r"(?ms)(^```.*?^```$)", text):
        if part.startswith("```"):
            made.append(code(part.splitlines()[1:-1], "example"))
        else:
            made += [paragraph(it.strip("\n").splitlines()) for it in re.split(r"\n\n+", part) if it.strip()]
    return "".join(made)


def contract(it):
    """The contract of an item, folded."""
    said = "".join(f"<li><code>{name}</code>: {inline(words)}</li>\n" for name, words in it.words.items())
    files = [f"<code>{file}</code> ({', '.join(f'<code>{escaped(name)}</code>' for name in names)})"
             for file, names in it.files()]
    inside = code(it.contract()) + (f"<ul>\n{said}</ul>\n" if said else "")
    inside += f"<p>Defined in {', '.join(files)}.</p>\n" if files else ""
    return f"<details><summary>Contract</summary>\n{inside}</details>\n" if inside else ""


def article(calls, it):
    """A type or a call, with all that its section's page has of it."""
    name = anchor(it.title)
    return (f'<article id="{name}">\n<h3><a href="#{name}">{escaped(it.title)}</a></h3>\n'
            + code(it.declaration(), "declaration") + blocks("\n".join(calls.comment(it)))
            + code(it.example, "example") + contract(it) + "</article>\n")


def section(calls, it):
    items = "".join(article(calls, item) for item in it.items)
    return (f'<section id="{it.name}">\n<h2>{escaped(it.title)}</h2>\n'
            f"<p>Use them from <code>{it.library}</code>.</p>\n{items}</section>\n")


def index_of(it):
    """The types and calls of a section, each with what it does."""
    rows = [f'<li><a href="#{anchor(item.title)}">{escaped(item.title)}</a>'
            f" <span>{inline(item.sentence())}</span></li>\n" for item in it.items if item.kind != "impl"]
    return f'<h3><a href="#{it.name}">{escaped(it.title)}</a></h3>\n<ul class="calls">\n{"".join(rows)}</ul>\n'


def html_page(calls, by_hand):
    """The page: all types and calls, and the sections that are written by hand."""
    sections = re.findall(r"(?ms)^## .*?(?=^## |\Z)", by_hand)
    titles = [re.match("## (.*)", it)[1] for it in sections]
    links = [(it.name, it.title) for it in calls.sections] + [(anchor(it), it) for it in titles]
    page = TEMPLATE.read_text()
    policy = base64.b64encode(hashlib.sha256(SCRIPT.search(page)[1].encode()).digest()).decode()
    filled = {
        "SCRIPT": f"sha256-{policy}",
        "CONTENTS": "".join(f'<a href="#{name}">{escaped(title)}</a>\n' for name, title in links),
        "INDEX": "".join(map(index_of, calls.sections)),
        "SECTIONS": "".join(section(calls, it) for it in calls.sections),
        "PROSE": blocks("".join(sections)),
    }
    return re.sub(r"@([A-Z]+)@", lambda found: filled[found[1]], page)
