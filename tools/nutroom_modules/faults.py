"""Why nothing can be played."""


class Fault(Exception):
    """Why nothing can be played, or only a part."""


class RoomFault(Fault):
    """A fault of a line of a description."""

    def __init__(self, path, number, text):
        super().__init__(f"{path}:{number}: {text}")
