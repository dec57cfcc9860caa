"""The text of a page as it is installed: without what is of the sources alone, and with the commands of what is installed."""

import re

# A link or a picture: its words, the file, the heading.
LINK = re.compile(r"!?\[([^\]]*)\]\(([^)#\s]*)(#[^)\s]*)?\)")
# What stands between these is left out.
SOURCES = re.compile(r"^<!-- sources -->\n.*?^<!-- /sources -->\n+|<!-- sources -->.*?<!-- /sources -->", re.M | re.S)
# What stands for what. Below `bindings/` are the examples, whose folder packaging/Makefile puts in.
INSTALLED = tuple((re.compile(before, re.M), after) for before, after in (
    (r"-I include (\S+) crates/instants_c/out/libinstants\.a", r"\1 -linstants"),
    (r"^export INSTANTS_LIBRARY=\S+ PYTHONPATH=\S+\n|\bINSTANTS_LIBRARY=crates\S+ PYTHONPATH=bindings/python ", ""),
    (r"\./(instants(?:-lines|-merge)?)\b(?![./])", r"\1"),
    (r"man \./docs/([\w-]+)\.\d", r"man \1"),
    (r"crates/description_check/out/description_check", "description_check"),
    (r"make -C bindings/postgres && sudo make -C bindings/postgres install",
     "cp -r bindings/postgres extension && make -C extension && sudo make -C extension install"),
    (r"pip install \./bindings/python", "pip install python/*.whl"),
    (r"`bindings/python/(instants/\w+\.py)`", r"`\1`"),
    (r"`bindings/python`", "`instants`"),
    (r"`include/instants\.h`", "`instants.h`"),
))
# What a command of an installed page can't name.
OF_SOURCES = re.compile(r"(?:^|[\s=\"'])(?:\.\.?/)*(?:crates|tools|include|bench|docs|bindings)/\S*|\./instants\S*|-I ?include\b", re.M)


def installed(text: str) -> str:
    """Returns the text of a page of the repository as it is installed, with all its links."""
    text = re.sub(r" +$", "", SOURCES.sub("", text), flags=re.M)
    for before, after in INSTALLED:
        text = before.sub(after, text)
    return text


def commands_in(text: str) -> list[tuple[str, str | None]]:
    """Returns the fences of commands of a page, each with what it prints, or None where the page does not say."""
    found = re.findall(r"^```sh[^\n]*\n(.*?)^```$(?:\n\n```text\n(.*?)^```$)?", text, re.M | re.S)
    return [(command, said or None) for command, said in found]
