"""Trials of the program that anyone can repeat: bin/trials, and docs/trials.md for what each kind does."""
