"""Why a file is refused."""


class Refusal(Exception):
    """The reason why a file cannot be linked into a program, with its unit, if there is one."""

    unit: int | None = None

    def __init__(self, why: str, unit: int | None = None) -> None:
        super().__init__(why)
        self.unit = unit
