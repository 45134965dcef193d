a = double(intmax('uint8'))
b = double(intmin('uint8'))
