ds = tabularTextDatastore()
