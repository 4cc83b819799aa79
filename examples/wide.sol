a R 0 0
a R 1 0
