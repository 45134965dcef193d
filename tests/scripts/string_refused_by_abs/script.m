x = abs('a')
