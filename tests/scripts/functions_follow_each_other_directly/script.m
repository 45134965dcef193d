x = 1
function f(a, b, c), end function g(a, b, c), x = 1; end
