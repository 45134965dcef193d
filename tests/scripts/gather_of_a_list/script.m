x = gather({'a'});
