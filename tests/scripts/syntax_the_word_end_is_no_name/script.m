x = 1
end = 2
