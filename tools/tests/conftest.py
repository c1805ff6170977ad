"""What pytest gives to the tests that are plain functions."""
import os
import sys

import pytest

sys.path[:0] = [os.path.dirname(os.path.abspath(__file__)), os.path.dirname(os.path.dirname(os.path.abspath(__file__)))]

from working import GIVEN

for name, make in GIVEN.items():
    globals()[name] = pytest.fixture(make, name=name)
