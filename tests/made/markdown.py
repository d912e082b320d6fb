"""Parts of pages that scripts make."""

import re


def slug(heading):
    """The anchor of a heading."""
    return re.sub(r"[^\w\- ]", "", heading.lower()).replace(" ", "-")


def table(head, rows):
    lines = [head, ["---"] * len(head), *rows]
    return "\n".join(f"| {' | '.join(str(cell) for cell in line)} |" for line in lines) + "\n"


def folded(title, text):
    """A part that a reader opens."""
    return f"<details><summary>{title}</summary>\n\n{text}\n\n</details>\n"


def code(text):
    return f"```\n{text}\n```"


def listed(names):
    return ", ".join(f"`{it}`" for it in sorted(names))


def counted(number, word):
    return f"{number} {word}" if number == 1 else f"{number} {word}s"


def to_line(line):
    """The end of a link to a line of a file. The first lines are seen without one."""
    return f"#L{line}" if line and line >= 10 else ""
