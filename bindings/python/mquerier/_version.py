"""The version. tools/wheel adds the date and hash of the commit."""

__version__ = "3.0.0"
