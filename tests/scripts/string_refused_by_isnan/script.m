x = isnan('a')
