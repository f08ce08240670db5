"""What selftest.py, beside this folder, asserts, by subject."""
