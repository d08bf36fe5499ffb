"""Commands that make requests."""
