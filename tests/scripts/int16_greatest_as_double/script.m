a = double(intmax('int16'))
b = double(intmin('int16'))
