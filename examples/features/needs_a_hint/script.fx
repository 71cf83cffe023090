# x appears twice, so that intervals alone lose: x * x - x on [0, 1]. The hint completes the square.
{ x in [0,1] -> x * x - x in ? }
x * x - x -> (x - 0.5) * (x - 0.5) - 0.25;
