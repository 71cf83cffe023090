# x clipped to [-1, 1], branch by branch.
{ x in [-4,4]
  -> x in [-1,1] /\ x - y in [0,0]
  \/ x >= 1 /\ y in [1,1]
  \/ x <= -1 /\ y in [-1,-1]
  -> y in ? /\ x - y in ? }
