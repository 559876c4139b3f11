"""Ducatmuffin: the proved checker for Starlark scripts, for Python and for the command `ducat`.

library   every function of include/starlark.h, over ctypes
table     records, names and the text form of a table
export    a table of a Starlark script, or of several (this step is not proved)
numbers   numbers, kinds, limits, dialects, modes and shapes
build     how the library is proved and compiled
"""
__version__ = "0.4.0"
