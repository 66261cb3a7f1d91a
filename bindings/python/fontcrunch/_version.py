"""The version, which include/fontcrunch.h has too: a test holds them together."""

__version__ = "1.0.0"
