"""What can be wrong with a line, with a description, and with the words of a run."""


class Refused(Exception):
    """A text names no moment. `why` is what an answer says after `! `."""

    def __init__(self, why: str) -> None:
        super().__init__(why)
        self.why = why

    @classmethod
    def component(cls, name: str) -> "Refused":
        """The component of this name can't be read."""
        return cls(f"component {name}")

    @classmethod
    def range(cls, name: str) -> "Refused":
        """All was read, and the value of this name is out of range."""
        return cls(f"range {name}")


class Faulty(Exception):
    """A description is none. `sentence` says, in bytes, what is wrong and where."""

    def __init__(self, sentence: bytes, index: int) -> None:
        super().__init__(sentence)
        self.sentence = sentence + b" at byte index %d" % index


class WrongWords(Exception):
    """The words of a run are wrong. `sentence` is what the program says, in bytes."""

    def __init__(self, sentence: bytes) -> None:
        super().__init__(sentence)
        self.sentence = b"instants-lines: " + sentence
