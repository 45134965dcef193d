a = 'b' == 'b'
b = 'b' ~= 'b'
c = 'a' < 'b'
d = 'b' <= 'a'
e = 'b' > 'a'
f = 'a' >= 'b'
g = strcmp('a', 'a')
h = strcmp('a', 'A')
