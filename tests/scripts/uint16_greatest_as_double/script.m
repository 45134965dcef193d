a = double(intmax('uint16'))
b = double(intmin('uint16'))
