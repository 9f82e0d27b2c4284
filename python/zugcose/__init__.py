"""Zugcose: an embedded column store with nested tables, driven through the program `mkshell`.

    import zugcose
    with zugcose.open("people.mk") as store:
        store.declare("people[name:S,phones[kind:S,number:S],born:I]")
        store.people.append("Ann", [("home", "555-0100")], 1970)
        for row in store.query("sort(select(people,born=1970),name)"):
            print(row.name, row.phones[0].number)
        store.commit("first people")
"""

from .errors import *  # noqa: F403
from .errors import __all__ as _errors
from .literals import literal
from .rows import Row, Rows
from .store import Note, Space, Store, open
from .structures import Column, Structure, structure
from .transport import Transport
from .views import View

__version__ = "0.3"
__all__ = ["Column", "Note", "Row", "Rows", "Space", "Store", "Structure", "Transport", "View", "literal", "open", "structure", *_errors]
