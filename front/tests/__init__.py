"""Tests of the front: python3 -m front.tests."""
