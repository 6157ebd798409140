"""What a picture cannot be drawn from."""


class Wrong(Exception):
    """The tree says what the picture has no place for; the message says what."""
