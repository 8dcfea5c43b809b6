"""The pages as a site of HTML: one file for each reader, and one to search in. It needs cmark-gfm of Debian, and no network."""
import base64
import hashlib
import html
import json
import posixpath
import re
import subprocess
from collections import Counter
from urllib.parse import quote

from listed import TOP

# A file for each reader: its name, what it is called, for whom it is, and the pages that it joins.
READERS = [
    ("index", "Start", "Put passkeys on a site.", ["README.md", "START.md", "python/README.md", "js/README.md", "go/README.md", "rust/README.md", "docs/COMING.md"]),
    ("run", "Run", "Operate a site.", ["docs/OPERATING.md", "docs/SITE.md", "docs/DISKS.md", "docs/LIMITS.md", "docs/REFUSALS.md"]),
    ("embed", "Embed", "Call the checks from a program of your own.", ["docs/EMBED.md", "docs/PYTHON.md", "docs/RATTLE.md"]),
    ("keys", "Keys and clients", "Talk to a security key, or build one.", ["docs/CLIENT.md", "docs/KEY.md"]),
    ("audit", "Audit", "Read what is proved, tested and trusted.", ["docs/PROMISES.md", "docs/AGREEMENT.md", "SECURITY.md", "docs/reports/INDEX.md", "docs/reports/NUMBERS.md", "docs/reports/WEAKENINGS.md", "docs/reports/GATE.md"]),
    ("contribute", "Contribute", "Change the code.", ["CONTRIBUTING.md", "docs/ARCHITECTURE.md", "docs/WORDS.md", "docs/DECISIONS.md", "crates/README.md", "CHANGELOG.md", "docs/STABILITY.md"]),
    ("speed", "Speed", "See what it costs.", ["docs/FIGURES.md", "speed/README.md"]),
]
FILE_OF = {page: f"{file}.html" for file, _, _, pages in READERS for page in pages}
TYPES = {".svg": "image/svg+xml", ".png": "image/png"}
HEADING = re.compile(r"<h([1-6])>(.*?)</h\1>", re.DOTALL)
HERE = TOP / "scripts" / "site"


def anchor(heading):
    """The anchor of a heading, as GitHub makes it."""
    return re.sub(r"[^\w\- ]", "", heading.strip().lower()).replace(" ", "-")


def bare(text):
    """The text of a piece of HTML."""
    return html.unescape(re.sub(r"<[^>]*>", "", text))


def section(page):
    """What a page is called in the addresses of its headings."""
    return page.removesuffix(".md").lower().replace("/", "-")


def place(page, link):
    """Where a link of a page leads in the site: to a heading there, to a file of the repository, or elsewhere as it is."""
    if re.match(r"[a-z]+:", link):
        return link
    path, _, name = link.partition("#")
    target = posixpath.normpath(posixpath.join(posixpath.dirname(page), path)) if path else page
    if target in FILE_OF:
        return f"{FILE_OF[target]}#{section(target)}" + (f"--{name}" if name else "")
    return quote(f"../../{target}") + (f"#{name}" if name else "")


def image(page, name):
    """A picture of a page as an address that holds it."""
    file = TOP / posixpath.normpath(posixpath.join(posixpath.dirname(page), name))
    return f"data:{TYPES[file.suffix]};base64,{base64.b64encode(file.read_bytes()).decode()}"


def rendered(page):
    """A page as HTML, whose headings have addresses, and the headings: (level, address, text)."""
    made = subprocess.run(["cmark-gfm", "--extension", "table"], input=(TOP / page).read_text(), capture_output=True, text=True, check=True).stdout
    made = re.sub(r"<!-- raw HTML omitted -->\n?", "", made)
    made = re.sub(r'(<a href=")([^"]*)"', lambda m: m[1] + html.escape(place(page, html.unescape(m[2]))) + '"', made)
    made = re.sub(r'(<img src=")([^"]*)"', lambda m: m[1] + image(page, html.unescape(m[2])) + '"', made)
    headings, taken = [], Counter()

    def addressed(match):
        level, text = int(match[1]), bare(match[2])
        name = anchor(text)
        address = section(page) + (f"--{name}" + (f"-{taken[name]}" if taken[name] else "") if headings else "")
        headings.append((level, address, text))
        taken[name] += 1
        return f'<h{level} id="{html.escape(address)}">{match[2]}</h{level}>'

    made = HEADING.sub(addressed, made)
    return made.replace("<table>", '<div class="table"><table>').replace("</table>", "</table></div>"), headings


def contents(headings):
    """A page's place in the list of contents: its name, and the headings below it."""
    (_, address, name), *below = headings
    inner = "".join(f'<li><a href="#{html.escape(at)}">{html.escape(text)}</a></li>' for level, at, text in below if level == 2)
    return f'<li><a href="#{html.escape(address)}">{html.escape(name)}</a>' + (f"<ul>{inner}</ul>" if inner else "") + "</li>"


def entries(file, made, headings):
    """What search knows of a page: the address, heading and text of each section."""
    bounds = [match.start() for match in HEADING_WITH_ID.finditer(made)] + [len(made)]
    for (_, address, text), begin, end in zip(headings, bounds, bounds[1:]):
        yield [f"{file}.html#{address}", text, " ".join(bare(made[begin:end]).split())]


HEADING_WITH_ID = re.compile(r'<h[1-6] id="')


def shaped(file, title, head, body, script=""):
    """A whole file, with the way to the others."""
    style = (HERE / "pages.css").read_text()
    digest = {text: f"'sha256-{base64.b64encode(hashlib.sha256(text.encode()).digest()).decode()}'" for text in (style, script)}
    policy = f"default-src 'none'; img-src data:; style-src {digest[style]}; script-src {digest[script] if script else chr(39) + 'none' + chr(39)}; base-uri 'none'"
    ways = "".join(f'<li><a href="{name}.html"{" aria-current=page" if name == file else ""}>{called}</a></li>' for name, called, _, _ in READERS)
    return f"""<!DOCTYPE html>
<html lang="en">
<head>
<meta charset="utf-8">
<meta http-equiv="Content-Security-Policy" content="{policy}">
<meta name="viewport" content="width=device-width, initial-scale=1">
<title>{html.escape(title)}</title>
<style>{style}</style>
</head>
<body>
<header>
<nav aria-label="Readers"><ul>{ways}</ul></nav>
<form action="search.html" role="search"><label>Search <input type="search" name="q" required></label> <button>Find</button></form>
</header>
{head}<main>
{body}</main>
{f"<script>{script}</script>" if script else ""}</body>
</html>
"""


def site():
    """The files of the site: their names and texts."""
    made, known = {}, []
    for file, called, purpose, pages in READERS:
        parts = [rendered(page) for page in pages]
        for text, headings in parts:
            known += entries(file, text, headings)
        listed = "".join(contents(headings) for _, headings in parts)
        head = f'<nav class="contents" aria-label="Contents"><p>{html.escape(purpose)}</p><ul>{listed}</ul></nav>\n'
        made[f"{file}.html"] = shaped(file, f"{called}: Garvoeng", head, "".join(f"<article>\n{text}</article>\n" for text, _ in parts))
    data = json.dumps(known, ensure_ascii=False, separators=(",", ":")).replace("<", "\\u003c")
    script = (HERE / "search.js").read_text().replace("[/* sections */]", data)
    made["search.html"] = shaped("search", "Search: Garvoeng", "", '<h1>Search</h1>\n<p id="count" role="status"></p>\n<ol id="found"></ol>\n<noscript><p>Search needs JavaScript.</p></noscript>\n', script)
    return made
