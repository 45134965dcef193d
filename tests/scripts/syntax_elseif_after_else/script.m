function f(a, b, c)
if 1
else
elseif 2
end
end
