# Cut into four pieces, whatever is settled before.
{ x in [0,1] -> x * (1 - x) in ? }
$ x in 4;
