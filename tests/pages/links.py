"""Looks at a site of HTML in a folder: python3 links.py FOLDER. Each link has to lead to a file of the site, to a heading of one, or to a file
of the repository; no two headings of a file have one address; and nothing is loaded from elsewhere. The last line is 'N passed, M failed'."""
import re
import sys
from html.parser import HTMLParser
from pathlib import Path
from urllib.parse import unquote

TOP = Path(__file__).resolve().parents[2]


class File(HTMLParser):
    """The addresses, links and loads of a file."""

    def __init__(self, text):
        super().__init__()
        self.addresses, self.links, self.loads = [], [], []
        self.feed(text)

    def handle_starttag(self, tag, attributes):
        for name, value in attributes:
            if name == "id":
                self.addresses.append(value)
            elif name == "href" and tag == "a":
                self.links.append(value)
            elif name in ("src", "href", "srcset", "data", "poster", "style") or name.startswith("on"):
                self.loads.append(value)


def leads(link, own, files):
    """Whether a link of a file leads somewhere."""
    if re.match("https?:|mailto:", link):
        return True
    path, _, address = link.partition("#")
    if path.startswith("../../"):
        return (TOP / unquote(path.removeprefix("../../"))).exists()
    file = files.get(path or own)
    return file is not None and (address == "" or unquote(address) in file.addresses)


def main(folder):
    files = {path.name: File(path.read_text()) for path in sorted(folder.iterdir())}
    faults = []
    for name, file in files.items():
        faults += [f"{name}: {link} leads nowhere" for link in file.links if not leads(link, name, files)]
        faults += [f"{name}: two headings have the address {one}" for one in {one for one in file.addresses if file.addresses.count(one) > 1}]
        faults += [f"{name}: loads {load[:60]}" for load in file.loads if not load.startswith("data:image/")]
    for fault in faults:
        print("FAILED:", fault)
    print(f"{sum(len(file.links) for file in files.values()) + len(files) - len(faults)} passed, {len(faults)} failed")
    return faults != []


sys.exit(main(Path(sys.argv[1])))
