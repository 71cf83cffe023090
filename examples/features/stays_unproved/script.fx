# Without a hint nothing relates the two uses of x: the goal stays unproved.
{ x in [0,1] -> x * (1 - x) in [0,0.3] }
