# A value in [1, 2] rounded to ten fraction bits: its relative error.
@rnd = fixed<-10,ne>;
{ @FIX(x,-15) /\ x in [1,2] -> rnd(x) -/ x in ? }
