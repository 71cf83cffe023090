# One step of a PI controller, whose state has an error.
@q = fixed<-15,ne>;
i1 q= i + ki * e;
u q= kp * e + i1;
{ e in [-1,1] /\ i in [-1,1] /\ I in [-1,1] /\ i - I in [-1b-12,1b-12] /\ kp in [0.5,2] /\ ki in [0,0.1] -> u - (kp * e + I + ki * e) in ? }
