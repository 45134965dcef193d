a = true | NaN
