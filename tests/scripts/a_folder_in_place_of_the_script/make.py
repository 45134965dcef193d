import pathlib

pathlib.Path("b.m").mkdir()
