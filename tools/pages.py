"""The pages of the repository, and what of them is prose and what is code."""
import re
import subprocess
from pathlib import Path

TOP = Path(__file__).resolve().parent.parent
CODE = re.compile(r"`([^`]*)`")


def pages():
    """Each page (*.md) that git knows, or could add, by its path."""
    listed = subprocess.run(["git", "ls-files", "-co", "--exclude-standard", "*.md"], cwd=TOP, capture_output=True, text=True, check=True)
    return [TOP / name for name in sorted(set(listed.stdout.splitlines())) if (TOP / name).exists()]


def lines_of(page):
    """The lines of a page: number, text, and whether the line stands in a block of code."""
    fenced = False
    for number, line in enumerate(page.read_text().splitlines(), 1):
        is_fence = line.startswith("```")
        fenced ^= is_fence
        yield number, line, fenced or is_fence or line.startswith("    ")


def prose(page):
    """The lines of a page outside blocks of code, with their numbers."""
    return ((number, line) for number, line, is_code in lines_of(page) if not is_code)


def code(page):
    """The lines of a page's blocks of code, and the spans of code in its prose, with their numbers."""
    for number, line, is_code in lines_of(page):
        if is_code:
            yield number, line.strip()
        else:
            yield from ((number, span) for span in CODE.findall(line))
