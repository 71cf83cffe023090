# No x meets both: a slip, such as a wrong unit in one of them.
{ x in [0,1] /\ 1000 * x in [2000,3000] -> x * x in ? }
