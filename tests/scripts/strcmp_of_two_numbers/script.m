x = strcmp(1, 1)
