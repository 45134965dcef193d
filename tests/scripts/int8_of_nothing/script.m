x = int8()
