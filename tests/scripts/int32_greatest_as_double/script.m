a = double(intmax('int32'))
b = double(intmin('int32'))
