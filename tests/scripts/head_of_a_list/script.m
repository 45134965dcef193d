a = head({'a'});
