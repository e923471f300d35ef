"""Tests of the register: python3 -m unittest discover -s register/tests -t . in library/examples."""
