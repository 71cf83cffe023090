# The same product on the whole of [0, 1] is bounded too widely; halving x until the goal is settled proves it.
{ x in [0,1] -> x * (1 - x) in [0,0.3] }
x * (1 - x) $ x;
