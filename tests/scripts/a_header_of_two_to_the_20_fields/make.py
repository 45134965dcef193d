import pathlib

pathlib.Path("a.csv").write_text("," * (2**20 - 1) + "\n")
