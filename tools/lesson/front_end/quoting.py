"""What others wrote, as it may stand in a message: on one line, and not too long."""

MOST_CHARACTERS = 60


def quoted(text, most=MOST_CHARACTERS):
    """The text, cut with '..', and with what cannot be seen by its number."""
    front = text[: most + 1]
    seen = "".join(character if character.isprintable() else f"<U+{ord(character):04X}>" for character in front)
    return seen if len(text) <= most and len(seen) <= most else f"{seen[: most - 2]}.."
