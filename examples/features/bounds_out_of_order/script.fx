{ x in [3,1] -> x + 1 in ? }
