"""Netlists in, pictures and suspects out: thin layers over the program `stil`.

Other programs import `stilfloor.records`, which reads datalogs, grades and events line by line.
"""

__version__ = "0.1.0"
