ds = tabularTextDatastore({})
