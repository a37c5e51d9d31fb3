#!/usr/bin/env python3
"""Writes docs/use/REFERENCE.md: each call of the library by language, with what its header or its
docstring says. `--check` compares the page with them, and ends with status 1 if they differ."""
import argparse
import inspect
import pathlib
import re
import sys
import textwrap

TOP = pathlib.Path(__file__).resolve().parents[2]
PAGE = TOP / "docs/use/REFERENCE.md"
sys.path.insert(0, str(TOP / "clients/python"))
sys.dont_write_bytecode = True

import clearmap

HEAD = """# Reference

What each call says of itself, from `clearmap.h`, the headers for C++ and the docstrings of the
package for Python. `tools/package/make_reference.py` writes this page. [LIBRARY](LIBRARY.md) shows
how the calls are used, and which one to take when.

- [Calls for C](#calls-for-c)
- [Classes for C++](#classes-for-c)
- [Python](#python)
"""
HEADERS = (
    "clearmap_map.hpp", "clearmap_field.hpp", "clearmap_footprint.hpp", "clearmap_slope.hpp",
    "clearmap_inflate.hpp", "clearmap_shapes.hpp", "clearmap_signed.hpp", "clearmap.hpp",
)  # fmt: skip
NAMED = re.compile(r"(?:template <[^>]*>\s*)?(?:class|struct|enum class) (\w+)")
# A type that has nothing but members: it is shown whole.
PLAIN = re.compile(r"(?:struct|enum class) \w+ \{[^(){}]*\};|enum class \w+ \{[^{}]*\};")
# Where a declaration ends: at its body, at what a constructor starts with, or at its last sign.
END = re.compile(r"(?<!= )\{|;|(?<=\))\s+: ")


def code(text, language=""):
    """A block of code."""
    return f"```{language}\n{text.rstrip()}\n```\n"


def words(text):
    """A comment as a page's text: what it indents is code there too."""
    return f"{text.strip()}\n"


# ---- C


C_CALL = re.compile(
    r"^(?:CLEARMAP_CHECKED\s+|static inline )?"
    r"(\w[\w\s\*]*?\*?clearmap_\w+\([^;{]*\))(?:;| \{)",
    re.M,
)
C_TYPE = re.compile(r"^(?:typedef struct|enum) clearmap_\w+ \{.*?^\}[^;]*;", re.M | re.S)
COMMENT = re.compile(r"^/\*(?P<said>(?:(?!\*/).)*)\*/\n", re.M | re.S)


def c_calls():
    """Each type and call of clearmap.h: the comment before it, and its declaration."""
    text = (TOP / "clients/c/clearmap.h").read_text()
    found = list(COMMENT.finditer(text))
    for part, after in zip(found, [*found[1:], None]):
        code_of = text[part.end() : after.start() if after else len(text)]
        types, calls = C_TYPE.findall(code_of), C_CALL.findall(code_of)
        said = re.sub(r"^ \* ?", "", part["said"], flags=re.M)
        if (types or calls) and not said.strip().startswith("----"):
            shown = [*types, *(f"{textwrap.dedent(call)};" for call in calls)]
            yield words(said), "\n".join(shown)


def c_part():
    """The calls for C."""
    return "".join(f"\n{code(calls, 'c')}\n{said}" for said, calls in c_calls())


# ---- C++


def blocks_of(lines):
    """The comments by `///` of some lines, each with the number of the line after it, and whether
    that is public: outside of `detail`, and not after `private:`."""
    is_shown, is_public, start = True, True, None
    for number, line in enumerate(lines):
        if re.match(r"(}  // )?namespace (clearmap::)?detail", line):
            is_shown = line.startswith("}")
        elif re.match(r"\s*(private|protected):|\s*public:|};", line):
            is_public = not re.match(r"\s*pr", line)
        if line.lstrip().startswith("///"):
            start = number if start is None else start
        elif start is not None:
            if is_shown and is_public:
                yield start, number
            start = None


def declaration(lines, number):
    """A declaration from this line on, up to its body."""
    text = "\n".join(lines[number : number + 30])
    ends = END.search(text)
    head = textwrap.dedent(text[: ends.start()] if ends else text).rstrip()
    whole = PLAIN.match(textwrap.dedent(text))
    return whole[0] if whole else head


def cpp_part():
    """The classes and calls of the headers for C++."""
    parts = []
    for name in HEADERS:
        lines = (TOP / "clients/cpp" / name).read_text().split("\n")
        parts.append(f"\n### {name}\n")
        for start, end in blocks_of(lines):
            said = "\n".join(re.sub(r"^\s*/// ?", "", line) for line in lines[start:end])
            named = NAMED.match(declaration(lines, end))
            head = f"\n#### {named[1]}\n" if named and not lines[end].startswith(" ") else ""
            parts.append(f"{head}\n{code(declaration(lines, end), 'cpp')}\n{words(said)}")
    return "".join(parts)


# ---- Python


def signature(call):
    """The arguments of a call, without their types, and without `self`."""
    try:
        found = inspect.signature(call)
    except (TypeError, ValueError):
        return "(..)"
    plain = [
        argument.replace(annotation=inspect.Parameter.empty)
        for name, argument in found.parameters.items()
        if name not in ("self", "cls") and not name.startswith("_")
    ]
    return str(inspect.Signature(plain))


def broken(call):
    """A call in lines of at most 100 columns."""
    name, _, rest = call.partition("(")
    indent = " " * (len(name) + 1)
    return "\n".join(textwrap.wrap(call, 100, subsequent_indent=indent)) if rest else call


def methods_of(kind):
    """The public methods and properties of a class, in their order, those of its bases first."""
    found = {}
    for base in reversed(kind.__mro__):
        if base.__module__.startswith("clearmap"):
            found.update({name: it for name, it in vars(base).items() if not name.startswith("_")})
    return found


def described(name, it):
    """A call or a property: its name with its arguments, and what it says."""
    call = getattr(it, "__func__", it)
    if isinstance(it, property):
        shown, said = name, inspect.getdoc(it.fget)
    elif callable(call):
        shown, said = name + signature(call), inspect.getdoc(call)
    else:
        return ""
    return f"\n{code(broken(shown), 'python')}\n{words(said)}" if said else ""


def python_class(name, kind):
    """A class: what it says, and its methods."""
    made = "" if issubclass(kind, Exception) else signature(kind)
    text = f"\n### {name}\n\n{code(broken(f'clearmap.{name}{made}'), 'python')}\n"
    text += words(inspect.getdoc(kind) or "")
    return text + "".join(described(f"{name}.{it}", call) for it, call in methods_of(kind).items())


def python_part():
    """What the package shows."""
    parts = []
    for name in clearmap.__all__:
        it = getattr(clearmap, name)
        if inspect.isclass(it) and it.__doc__:
            parts.append(python_class(name, it))
        elif inspect.isroutine(it):
            parts.append(f"\n### {name}\n{described(f'clearmap.{name}', it)}")
    return "".join(parts)


def page():
    """The whole page."""
    parts = ("Calls for C", c_part()), ("Classes for C++", cpp_part()), ("Python", python_part())
    return HEAD + "".join(f"\n## {name}\n{text}" for name, text in parts)


def main():
    """Writes the page, or compares it."""
    parser = argparse.ArgumentParser(description=__doc__)
    parser.add_argument("--check", action="store_true")
    if not parser.parse_args().check:
        PAGE.write_text(page())
    elif PAGE.read_text() != page():
        print("docs/use/REFERENCE.md isn't what the sources say: tools/package/make_reference.py")
        return 1
    return 0


if __name__ == "__main__":
    sys.exit(main())
