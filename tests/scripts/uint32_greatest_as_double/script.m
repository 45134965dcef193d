a = double(intmax('uint32'))
b = double(intmin('uint32'))
