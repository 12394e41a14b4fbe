class Missing(Exception):
    """A tool that a test needs is not installed; the runner says it in one line."""
