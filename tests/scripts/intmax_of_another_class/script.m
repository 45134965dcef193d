a = intmax('double')
