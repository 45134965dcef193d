x = 1
function = 2
