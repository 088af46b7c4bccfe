printf '#%4088s\n3 5\n2 3\n3 4\n4 5\n' ''
