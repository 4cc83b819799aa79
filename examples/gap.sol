a R 0 0
b R 0 2
