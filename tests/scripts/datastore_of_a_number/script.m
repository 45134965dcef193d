ds = tabularTextDatastore(1)
