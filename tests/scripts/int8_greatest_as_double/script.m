a = double(intmax('int8'))
b = double(intmin('int8'))
