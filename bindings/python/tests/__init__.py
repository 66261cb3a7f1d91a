"""The module's tests: python3 -m unittest discover -s tests -t . in bindings/python, after tools/library and tools/shared."""
