"""Commands about what lies where."""
