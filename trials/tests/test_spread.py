"""Tests of the picture of fair shares."""
from __future__ import annotations

import os
import random
import unittest
import xml.etree.ElementTree
from unittest import mock

from trials.rows import RELEASE
from trials.spread import drawn, parts_of


class Spread(unittest.TestCase):
    """Shares of joining nodes."""

    def test_chosen_tokens_give_a_fair_share(self) -> None:
        draw = random.Random(5)
        with mock.patch.dict(os.environ, {"TCM": os.environ.get("TCM") or RELEASE}):
            for _ in range(5):
                self.assertAlmostEqual(parts_of(draw)[1], 1.0, delta=0.1)

    def test_the_picture_has_a_dot_for_each(self) -> None:
        picture = xml.etree.ElementTree.fromstring(drawn([(0.5, 1.0), (9.0, 0.99)]))
        self.assertEqual(sum(it.tag.endswith("circle") for it in picture.iter()), 4)
