"""Tests of the trials: python3 -m unittest, in the folder above trials/."""
