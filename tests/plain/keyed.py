"""Views whose rows are kept by key, as lists of rows: each edit looks at all of them."""

from dataclasses import dataclass, field

from plain import tables
from plain.operators import sortable

Model, Refused = tables.Model, tables.Refused

MOST_MAPPINGS = 64


@dataclass
class Mapping:
    """Whether the rows stand in the order of their keys, and how many first values of a row are its key."""

    in_order: bool
    count: int

    def key(self, row):
        return [sortable(value) for value in row[:self.count]]

    def broken(self, rows):
        """The first row whose key stood before, or is not above that of the row before it."""
        keys = list(map(self.key, rows))
        return next((at for at in range(1, len(keys)) if (keys[at] <= keys[at - 1] if self.in_order else keys[at] in keys[:at])), None)

    def put(self, table, row, place):
        """Puts a row in: in the place of the one that has its key, or else before a place, or behind the lesser keys. Gives where it stands."""
        key, keys = self.key(row), list(map(self.key, table.rows))
        if self.in_order:
            place = sum(other < key for other in keys)
        if key in keys:
            place = keys.index(key)
            del table.rows[place]
        table.rows.insert(place, row)
        table.forget()
        return place

    def settle(self, table, at):
        """The row at a place was changed: another row that has its key goes, and in the order of keys it goes where it belongs."""
        row, key = table.rows[at], self.key(table.rows[at])
        others = [other for place, other in enumerate(table.rows) if place != at]
        kept = [other for other in others if self.key(other) != key]
        if len(kept) < len(others):
            at = sum(self.key(other) != key for other in table.rows[:at])
            table.forget()
        place = sum(self.key(other) < key for other in kept) if self.in_order else at
        if place != at:
            for value in row:
                if isinstance(value, tables.Table):
                    value.forget_all()
            table.forget()
        table.rows[:] = [*kept[:place], row, *kept[place:]]


@dataclass
class Keyed(Model):
    """Views of which some are mapped."""

    mappings: dict = field(default_factory=dict)

    def hash(self, name, count):
        return self.map(name, Mapping(False, count))

    def ordered(self, name, count):
        return self.map(name, Mapping(True, count))

    def map(self, name, mapping):
        if name not in self.views:
            raise Refused("3 noname")
        table = self.views[name]
        if any(tables.is_view(kind) for _, kind in table.props[:mapping.count]):
            raise Refused("7 kind")
        if not 0 < mapping.count <= len(table.props):
            raise Refused(f"5 range {len(table.props)}")
        if len(self.mappings) >= MOST_MAPPINGS:
            raise Refused("8 limit")
        broken = mapping.broken(table.rows)
        if broken is not None:
            raise Refused(f"17 keys {broken}")
        if name in self.mappings:
            raise Refused("16 inuse")
        self.mappings[name] = mapping
        return ""

    def unmap(self, name):
        if name not in self.mappings:
            raise Refused("3 noname")
        del self.mappings[name]
        return ""

    def mapping_on(self, path):
        """The mapping of the view that a path names itself: an edit inside a row changes no key."""
        return self.mappings.get(path[0]) if len(path) == 1 else None

    def add(self, path, literals):
        mapping = self.mapping_on(path)
        if mapping is None:
            return super().add(path, literals)
        table = self.put(path, None, 0, literals)
        return str(mapping.put(table, tables.made_row(literals, table.props), len(table.rows)))

    def insert(self, path, place, count, literals):
        mapping = self.mapping_on(path)
        if mapping is None:
            return super().insert(path, place, count, literals)
        table = self.put(path, place, count if count > tables.ROWS_AT_ONCE else 0, literals)
        if count:
            mapping.put(table, tables.made_row(literals, table.props), place)
        return str(len(table.rows))

    def set(self, path, row, prop, literal):
        super().set(path, row, prop, literal)
        mapping = self.mapping_on(path)
        if mapping:
            mapping.settle(self.table(path), row)
        return ""
