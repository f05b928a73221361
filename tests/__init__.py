"""The tests of the built program: `python3 -m tests` runs all, `python3 -m unittest tests.test_lines -k NAME` runs one.
"""
