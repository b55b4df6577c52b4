"""Tests of the package beside this folder: `python3 -m unittest discover -s tools/tests -t tools` from the top of the
checkout.

They run `atomic` and `atomic_why` as the package finds them, proved or not.
"""
