"""A base class for immutable values with names. Dataclasses would serve too, but importing their
module takes longer than importing this package."""

from __future__ import annotations

TYPE_CHECKING = False
if TYPE_CHECKING:
    from typing import Any, NoReturn, TypeVar

    Self = TypeVar("Self", bound="Frozen")


class Frozen:
    """Two values are equal, and have the same hash, if all of their attributes are equal."""

    def __init__(self, *values: object, **named: object) -> None:
        """Sets all attributes, in the order in which the class lists them."""
        given = dict(zip(self.__annotations__, values), **named)
        names, count = self.__annotations__, len(values) + len(named)
        if given.keys() != names.keys() or count != len(names):
            raise TypeError(f"the constructor needs {', '.join(names)}")
        self._set(**given)

    def _set(self, **values: object) -> None:
        """Sets the attributes, in the order in which the repr shows them."""
        vars(self).update(values)

    def _shown(self) -> dict[str, object]:
        """Returns the attributes that the repr shows."""
        return vars(self)

    def replace(self: Self, **changes: Any) -> Self:
        """Returns a copy in which some attributes have other values."""
        return type(self)(**{**vars(self), **changes})

    def __replace__(self: Self, **changes: Any) -> Self:
        """Serves copy.replace, of Python 3.13."""
        return self.replace(**changes)

    def __setattr__(self, name: str, *value: object) -> NoReturn:
        raise AttributeError(f"a {type(self).__name__} doesn't change")

    __delattr__ = __setattr__

    def __eq__(self, other: object) -> bool:
        if type(other) is not type(self):
            return NotImplemented
        return vars(self) == vars(other)

    def __hash__(self) -> int:
        return hash((type(self), *vars(self).values()))

    def __repr__(self) -> str:
        shown = ", ".join(f"{name}={value!r}" for name, value in self._shown().items())
        return f"{type(self).__qualname__}({shown})"
