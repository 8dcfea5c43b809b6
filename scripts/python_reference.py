"""The reference page of Python's package, from its docstrings."""
import ast
import re
import sys
from pathlib import Path

HEAD = "<!-- ./dev pages writes this page from the sources. -->\n"
MODULES = {
    "garvoeng": ("server", "keeping", "memory", "stored", "records", "errors", "library", "limits"),
    "garvoeng.sql": ("sql", "sql_rows"), "garvoeng.web": ("web/__init__", "web/accounts", "web/stores", "web/requests", "web/models"),
    "garvoeng.flask": ("flask",), "garvoeng.starlette": ("starlette",), "garvoeng.aiohttp": ("aiohttp",),
    "garvoeng.django": ("django/__init__", "django/accounts", "django/visitors", "django/backends", "django/models", "django/rest"),
    "garvoeng.client": ("client", "client_program", "hid"), "garvoeng.explain": ("explain",), "garvoeng.extensions": ("extensions",), "garvoeng.forms": ("forms",), "garvoeng.move": ("move", "move_site"), "garvoeng.signatures": ("signatures",),
}


def plain(text):
    """Each paragraph in one line; what is indented stays as it is."""
    return "\n\n".join(part if part.startswith("    ") else re.sub(r"\s*\n\s*", " ", part) for part in text.strip().split("\n\n"))


def docstring(node):
    return plain(ast.get_docstring(node) or "")


def signature(node):
    """A function's parameters and what it gives, without `self`; of a property its type."""
    if any(isinstance(one, ast.Name) and one.id == "property" for one in node.decorator_list):
        return f"{node.name}: {ast.unparse(node.returns)}"
    made = ast.unparse(node.args)
    made = re.sub(r"^(self|cls)(, )?", "", made)
    return f"{'async ' if isinstance(node, ast.AsyncFunctionDef) else ''}{node.name}({made})" + (f" -> {ast.unparse(node.returns)}" if node.returns else "")


def fields(body):
    """A class's fields, each with the text after it."""
    for at, node in enumerate(body):
        if isinstance(node, ast.AnnAssign):
            after = body[at + 1] if at + 1 < len(body) else None
            has_text = isinstance(after, ast.Expr) and isinstance(after.value, ast.Constant) and isinstance(after.value.value, str)
            yield ast.unparse(node), plain(after.value.value) if has_text else ""


def members(node):
    functions = [one for one in node.body if isinstance(one, (ast.FunctionDef, ast.AsyncFunctionDef)) and not one.name.startswith("_")]
    for line, text in fields(node.body):
        yield f"- `{line}`" + (f": {text}" if text else "")
    for one in functions:
        text = docstring(one)
        yield f"- `{signature(one)}`" + (f": {text}" if text else "").replace("\n\n", "\n\n  ")


def of_module(folder, name, names):
    tree = ast.parse((folder / f"{name}.py").read_text())
    for at, node in enumerate(tree.body):
        if isinstance(node, ast.ClassDef) and (names is None or node.name in names) and not node.name.startswith("_"):
            first = next((one for one in node.body if isinstance(one, ast.FunctionDef) and one.name == "__init__"), None)
            made = f"{node.name}({re.sub(r'^self(, )?', '', ast.unparse(first.args))})" if first else node.name
            yield f"### `{made}`\n\n{docstring(node)}\n"
            listed = list(members(node))
            if listed:
                yield "\n".join(listed) + "\n"
        elif isinstance(node, (ast.FunctionDef, ast.AsyncFunctionDef)) and not node.name.startswith("_") and (names is None or node.name in names):
            yield f"### `{signature(node)}`\n\n{docstring(node)}\n"


def listed_in(file):
    """The names that a module lists as its own, or None."""
    return next((ast.literal_eval(node.value) for node in ast.parse(file.read_text()).body
                 if isinstance(node, ast.Assign) and getattr(node.targets[0], "id", "") == "__all__"), None)


def reference(top):
    """The page. What has no docstring is told on standard error, and fails."""
    folder = top / "python" / "garvoeng"
    out = [HEAD, "# The package for Python\n", "[`python/README.md`](../python/README.md) says how to begin.\n"]
    for module, files in MODULES.items():
        out.append(f"## `{module}`\n")
        first = (folder / (files[0] if module.count('.') else '__init__')).with_suffix(".py")
        out.append(docstring(ast.parse(first.read_text())) + "\n")
        for file in files:
            out += of_module(folder, file, listed_in(first))
    page = re.sub(r"\n{3,}", "\n\n", "\n".join(out))
    bare = re.findall(r"^### `(.*)`\n\n\n", "\n".join(out), re.M)
    if bare:
        sys.exit(f"no docstring: {', '.join(bare)}")
    return page
