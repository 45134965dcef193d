import pathlib

pathlib.Path("b.csv").mkdir()
