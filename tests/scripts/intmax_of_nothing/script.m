a = intmax()
