s = sum({'a'});
