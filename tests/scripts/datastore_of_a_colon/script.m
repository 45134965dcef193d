ds = tabularTextDatastore(:)
