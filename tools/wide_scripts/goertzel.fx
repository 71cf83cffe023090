# One step of the Goertzel recurrence, with errors in the state and in the coefficient.
@q = fixed<-14,ne>;
s0 q= x + c * s1 - s2;
{ x in [-1,1] /\ c in [-2,2] /\ s1 in [-4,4] /\ s2 in [-4,4] /\ s1 - S1 in [-1b-10,1b-10] /\ s2 - S2 in [-1b-10,1b-10] /\ c - C in [-1b-15,1b-15]
  -> s0 - (x + C * S1 - S2) in ? }
