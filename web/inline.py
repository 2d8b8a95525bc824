"""Writes the page as one HTML file: the library, the script, the style and the examples stand in it, and nothing else is loaded.

A content policy names the script and the style by their hashes, so that nothing runs that is not in the file.
"""

import argparse
import base64
import hashlib
import html
import json
import re
import sys
from pathlib import Path

HERE = Path(__file__).resolve().parent
ROOT = HERE.parent
OUTLINES = ROOT / "host/program"

IMPORT = re.compile(r'^import \{([^}]*)\} from "(\.[^"]+)";\n', re.MULTILINE)
EXPORT = re.compile(r"^export ((?:async )?function\*?|const|let|class) (\w+)", re.MULTILINE)
FILLED = re.compile(r"\{(\w+)\}")
PLACE = re.compile(r"\{\{([^}]+)\}\}|\[\[(\w+)\]\]")
# An element whose whole content is a text, and the opening tag of one with texts in its attributes.
CONTENT = re.compile(r"(<[a-z][^<>]*)>\{\{([^}]+)\}\}</")
TAG = re.compile(r"<[a-z][^<>]*\{\{[^<>]*>")
ATTRIBUTE = re.compile(r'([a-z-]+)="\{\{([^}]+)\}\}"')


class Fault(Exception):
    """Something is wrong with a source, in words."""


def messages(path):
    """The table of a file of messages: its object is written as JSON is."""
    words = path.read_text(encoding="utf-8-sig")
    try:
        return json.loads(words[words.index("{", words.index("MESSAGES")) : words.rindex("}") + 1])
    except ValueError as error:
        raise Fault(f"{path}: the table is not one of keys and texts: {error}") from None


def check(path, table):
    """Whether a translated table has every text, and no place that the page does not fill."""
    own = messages(HERE / "messages.js")
    missing = sorted(own.keys() - table.keys())
    if missing:
        raise Fault(f"{path}: there is no text for {', '.join(missing)}")
    if not re.fullmatch(r"[A-Za-z]{2,3}(-[A-Za-z0-9]+)*", table["lang"]):
        raise Fault(f"{path}: {table['lang']!r} is no language, as en or de-CH is")
    if table["dir"] not in ("ltr", "rtl"):
        raise Fault(f"{path}: {table['dir']!r} is no direction: ltr or rtl")
    for key, words in table.items():
        # Any plural may have the number in it, also one that this table does not have.
        plural = own.get(key.rpartition(".")[0] + ".other", "")
        unknown = set(FILLED.findall(words)) - set(FILLED.findall(own.get(key, "") + plural))
        if unknown:
            raise Fault(f"{path}: the text of {key} has {{{unknown.pop()}}}, which the page does not fill")


def keyed(source):
    """The document with the keys of its texts in attributes, so that the page can put another language there."""

    def tag(found):
        pairs = " ".join(f"{name}={key}" for name, key in ATTRIBUTE.findall(found[0]))
        return f'{found[0][:-1]} data-texts="{pairs}">'

    return TAG.sub(tag, CONTENT.sub(r'\1 data-text="\2">{{\2}}</', source))


def version():
    """The version of the library, as its interface to JavaScript has it."""
    return re.search(r"export const version = '([^']+)'", (ROOT / "js/robequarry.js").read_text())[1]


class Bundle:
    """Modules as functions in one script: each returns what it exports, and stands behind those that it imports."""

    def __init__(self, instead):
        self.instead = instead
        self.done = {}
        self.open = []

    def add(self, path):
        path = path.resolve()
        if path in self.open:
            raise Fault(f"{path.name} imports itself, by way of others")
        if path in self.done:
            return
        self.open.append(path)
        source = self.instead.get(path, path).read_text(encoding="utf-8-sig")
        for _, name in IMPORT.findall(source):
            self.add(path.parent / name)
        self.open.pop()
        self.done[path] = self.wrapped(path, source)

    def wrapped(self, path, source):
        names = ", ".join(name for _, name in EXPORT.findall(source))

        def imported(found):
            return f"const {{{found[1].replace(' as ', ': ')}}} = modules[{self.key(path.parent / found[2])}];\n"

        body = EXPORT.sub(r"\1 \2", IMPORT.sub(imported, source))
        if re.search(r"^(import|export)\b", body, re.MULTILINE):
            raise Fault(f"{path.name} has an import or an export of another form")
        return f"modules[{self.key(path)}] = (() => {{\n{body}\nreturn {{ {names} }};\n}})();\n"

    def key(self, path):
        return json.dumps(path.resolve().relative_to(ROOT).as_posix())

    def script(self):
        return "const modules = {};\n" + "".join(self.done.values())


def source_of(words):
    """What a policy calls a script or a style of this text."""
    return "'sha256-" + base64.b64encode(hashlib.sha256(words.encode()).digest()).decode() + "'"


def policy(script, style):
    return (
        f"default-src 'none'; script-src {source_of(script)} 'wasm-unsafe-eval'; style-src {source_of(style)}; "
        "img-src data:; base-uri 'none'; form-action 'none'"
    )


def page(library, table_path=None):
    """The whole page as text: in the languages that it has, or in the one of another table."""
    tables = [table_path] if table_path else [HERE / "messages.js", *sorted(HERE.glob("messages.*.js"))]
    for path in tables:
        check(path, messages(path))
    table = messages(tables[0])
    bundle = Bundle({path.resolve(): table_path for path in HERE.glob("messages*.js")} if table_path else {})
    bundle.add(HERE / "page.js")
    script = bundle.script()
    style = (HERE / "style.css").read_text()
    parts = {
        "policy": policy(script, style),
        "style": style,
        "script": script,
        "version": version(),
        "hash": hashlib.sha256(library.read_bytes()).hexdigest(),
        "library": base64.b64encode(library.read_bytes()).decode(),
        "specimens": (OUTLINES / "specimens.txt").read_text(),
        "training": (OUTLINES / "training.txt").read_text(),
    }
    for name, words in parts.items():
        if "</" in words and re.search(r"</(script|style)", words, re.IGNORECASE):
            raise Fault(f"the {name} would end its own element")

    def filled(found):
        if found[2]:
            return parts[found[2]]
        if found[1] not in table:
            raise Fault(f"index.html: there is no text for {found[1]}")
        return html.escape(table[found[1]])

    return PLACE.sub(filled, keyed((HERE / "index.html").read_text()))


def main():
    parser = argparse.ArgumentParser(prog="page", description="Writes the page as one HTML file.")
    parser.add_argument("--messages", type=Path, metavar="FILE", help="one table of the page's sentences, in place of those that it has")
    parser.add_argument("--library", type=Path, default=ROOT / "target/wasm32/robequarry.wasm", help=argparse.SUPPRESS)
    parser.add_argument("-o", "--out", type=Path, default=ROOT / "target/page/robequarry.html", metavar="FILE", help="where to write it")
    arguments = parser.parse_args()
    try:
        made = page(arguments.library, arguments.messages)
        arguments.out.parent.mkdir(parents=True, exist_ok=True)
        arguments.out.write_text(made)
        released = arguments.out.with_name(f"{arguments.out.stem}-{version()}{arguments.out.suffix}")
        released.write_text(made)
    except OSError as error:
        sys.exit(f"page: {error.filename}: {error.strerror}")
    except Fault as fault:
        sys.exit(f"page: {fault}")
    print(f"page: {arguments.out.resolve()} ({len(made.encode()) // 1024} KB): open it in a browser")
    print(f"page: {released.resolve()} is the same file, with the library's version in its name")


if __name__ == "__main__":
    main()
