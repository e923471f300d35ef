"""Tests of timestore-browse: python3 -m unittest discover -s tests -t . in library/browse."""
