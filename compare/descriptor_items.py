"""An item of a descriptor, for both evaluators: what it gives as a field, and what setting it does."""

from dataclasses import dataclass

CODE_OF_NEW = 12


@dataclass
class Item:
    """What it holds, its name, and its type. A kind of item is named as in written C."""

    content: bytes | None = None
    label: bytes = b""
    code: int = CODE_OF_NEW

    def given(self, kind):
        """What it gives as a field."""
        if kind in ("data", "name"):
            return self.content if kind == "data" else self.label
        number = {"indicator": -(self.content is None), "type": self.code, "ret_octet": len(self.content or b"")}[kind]
        return str(number).encode()

    def set(self, kind, value):
        """The data of a field, or another kind of a number."""
        if kind == "data":
            self.content = value
        elif kind == "type":
            self.code = value
        elif value < 0:
            self.content = None
