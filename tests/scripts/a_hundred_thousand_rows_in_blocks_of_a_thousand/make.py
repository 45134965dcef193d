import pathlib

pathlib.Path("a.csv").write_text("x\n" + "1\n" * 100000)
