"""Words that several parts of the page's server say."""


def counted(count: int, what: str) -> str:
    """A number of something."""
    return f"1 {what}" if count == 1 else f"{count} {what}s"
