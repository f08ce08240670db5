"""The rules of 01, one subject a module.  boardref.py, beside this folder, is the front."""
