"""Tests of the clients: `clients/tests/run`, or one file by `python3 -m unittest tests.test_text` in clients/."""
