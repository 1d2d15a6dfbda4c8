#!/usr/bin/env python3
"""Fills in the numbers of README.md and docs/*.md that are between marks, or checks them: see page_numbers.py.

    scripts/numbers.py [--check | --list]
"""
if __name__ == "__main__":
    import page_numbers

    page_numbers.main()
else:
    # Python has a module of this name too. A script of this folder that imports it, as `statistics` does, gets Python's.
    import pathlib
    import sysconfig

    exec(pathlib.Path(sysconfig.get_path("stdlib"), "numbers.py").read_text())
