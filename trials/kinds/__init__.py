"""The kinds of trials, one module each: see trials/kind.py for how one is added."""
