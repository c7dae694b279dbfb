"""What an operator or a disturbance changes."""
from typing import NamedTuple


class Change(NamedTuple):
    """What is deleted, as patterns, and what is added then."""
    delete: tuple
    add: tuple

    def under(self, values):
        """The change with values for parameters."""
        return Change(*(tuple(atom.under(values) for atom in atoms) for atoms in self))

    def of(self, facts):
        """The facts that it leaves."""
        return frozenset(fact for fact in facts if not any(pattern.is_pattern_of(fact) for pattern in self.delete)) | frozenset(self.add)
