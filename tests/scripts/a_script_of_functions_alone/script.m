function f(a, b, c)
end
function g(~, ~, ~), end
