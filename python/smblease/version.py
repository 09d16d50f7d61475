"""The version, which pyproject.toml reads here. It is that of include/smblease.h, and a test looks that it is.

>>> VERSION.split(".")[:2] == [str(MAJOR), str(MINOR)]
True
"""
VERSION = "0.4.0"
# A library of the same first number fits, where its second one is no lower.
MAJOR, MINOR, _ = map(int, VERSION.split("."))
