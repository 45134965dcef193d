% first
x = 1 % then = (
%
y = 'a % b' % c
