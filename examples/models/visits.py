"""Which lines of the model were run, and which never."""
import inspect
import sys
from pathlib import Path

FOLDER = Path(__file__).resolve().parent
# The model itself; the other files of the folder choose, compare and tell.
FILES = ["book.py", "credit_control.py", "diameter.py", "nodes.py", "site_data.py", "site_file.py", "world.py"]
# Functions in these that no run asks: the command line of site_file.py, and a choice of identifiers.
NOT_ASKED = {"told", "text_of_row", "check", "main", "lowest_free"}


def codes_in(code):
    """The functions in this code, and in what stands in it."""
    for inner in code.co_consts:
        if inspect.iscode(inner):
            yield from [inner] if inner.co_flags & inspect.CO_OPTIMIZED else []
            yield from codes_in(inner)


def lines_in(path):
    """The lines of a file's functions, without their first ones and their comments."""
    module = compile(path.read_text(), path, "exec")
    asked = [code for code in codes_in(module) if code.co_name not in NOT_ASKED]
    return {line for code in asked for *_, line in code.co_lines() if line and line != code.co_firstlineno}


class Visits:
    """Notes the lines that are run while it is entered."""

    def __init__(self):
        self.lines = {str(FOLDER / name): set() for name in FILES}

    def __enter__(self):
        sys.settrace(self.call)
        return self

    def __exit__(self, *_):
        sys.settrace(None)

    def call(self, frame, event, argument):
        return self.line if frame.f_code.co_filename in self.lines else None

    def line(self, frame, event, argument):
        if event == "line":
            self.lines[frame.f_code.co_filename].add(frame.f_lineno)
        return self.line

    def never(self):
        """The lines that were never run, with their texts."""
        for name, run in self.lines.items():
            texts = Path(name).read_text().splitlines()
            for line in sorted(lines_in(Path(name)) - run):
                yield f"{Path(name).name}:{line}: {texts[line - 1].strip()}"
