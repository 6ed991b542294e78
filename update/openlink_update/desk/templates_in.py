"""The templates of the pages, by python3-jinja2, which nothing else of the update needs."""
import functools
import importlib
import importlib.util
from pathlib import Path
from typing import Protocol

from openlink_update.shown_text import printable

FOLDER = Path(__file__).resolve().parent / "templates"
_MODULE = "jinja2"
PACKAGE = "python3-jinja2"


class _Template(Protocol):
    def render(self, **values: object) -> str:
        """The text with these values, of which each is escaped."""


class _Environment(Protocol):
    def get_template(self, name: str) -> _Template:
        """The template in a file."""


def _shown(value: object) -> object:
    """A value as a page has it: of a text, without characters that HTML may not have or that change its direction. What
    a macro of a template has written is no plain text."""
    return printable(value) if type(value) is str else value


def are_there() -> bool:
    """Whether the package is installed."""
    return importlib.util.find_spec(_MODULE) is not None


@functools.cache
def _environment() -> _Environment:
    """That of this process, which compiles each template once."""
    module = importlib.import_module(_MODULE)
    made: _Environment = module.Environment(
        loader=module.FileSystemLoader(str(FOLDER)),
        autoescape=True,
        finalize=_shown,
        undefined=module.StrictUndefined,
        trim_blocks=True,
        lstrip_blocks=True,
        keep_trailing_newline=True,
    )
    return made


def page(name: str, **values: object) -> str:
    return _environment().get_template(name).render(**values)
