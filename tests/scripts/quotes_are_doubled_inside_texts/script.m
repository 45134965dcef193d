a = 'it''s'
b = "a""b"
c = 'say "hi"'
d = "it's"
e = ''
f = ""
