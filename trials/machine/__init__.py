"""A reference machine: docs/definitions.md and docs/language.md in plain Python, slow and obvious.

It is written from these pages alone, in their order and with their names, and shares nothing with the program.
"""
