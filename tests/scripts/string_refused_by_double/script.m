x = double('1')
