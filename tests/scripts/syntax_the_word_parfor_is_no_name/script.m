x = 1
parfor = 2
