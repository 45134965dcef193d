a = intmax('int64') == intmax('int64') - 1
b = intmax('uint64') ~= intmax('uint64') - 1
