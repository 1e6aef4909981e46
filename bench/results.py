"""The sections of RESULTS.md, one for each program that measures."""

import pathlib

RESULTS = pathlib.Path(__file__).resolve().parent / "RESULTS.md"


def put(section, results=RESULTS):
    """Puts a section, which begins with its heading, in the place of the one of the same heading, or at the end."""
    text = results.read_text() if results.exists() else "# Results\n"
    first, *rest = text.split("\n## ")
    sections = {part.splitlines()[0]: "## " + part.strip("\n") for part in rest}
    sections[section.splitlines()[0][3:]] = section.strip("\n")
    results.write_text("\n\n".join([first.strip("\n"), *sections.values()]) + "\n")
