import pathlib

pathlib.Path("a.csv").mkdir()
