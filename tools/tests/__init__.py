"""Tests of the planner: python3 -m unittest, in the folder above tools/."""
