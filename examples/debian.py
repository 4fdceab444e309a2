"""Modules of Python that come as packages of Debian, for whichever Python a script runs under.

Debian's packages belong to /usr/bin/python3. Another one, such as pyenv's, doesn't look into their folder: then it is
looked into behind all others. What is compiled for another version of Python doesn't load, and counts as not there.
"""
import importlib
import os
import sys

FOLDER = "/usr/lib/python3/dist-packages"


def import_debian(name):
    """The module `name`, such as scapy.all or matplotlib.pyplot. Raises ImportError where it isn't there."""
    try:
        return importlib.import_module(name)
    except ImportError:
        if FOLDER in sys.path or not os.path.isdir(FOLDER):
            raise
    for broken in [it for it in sys.modules if it.split(".")[0] == name.split(".")[0]]:
        del sys.modules[broken]  # what an import left that failed halfway
    sys.path.append(FOLDER)
    return importlib.import_module(name)
