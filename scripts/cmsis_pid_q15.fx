# CMSIS-DSP arm_pid_q15 with arm_pid_init's gains A0 = Kp + Ki + Kd, A1 = -(Kp + 2 Kd), A2 = Kd;
# the engineer's form is Kp, Ki, Kd
A0 = Kp + Ki + Kd;
A1 = -(Kd + Kd + Kp);
A2 = Kd;
y = fixed<-15,dn>(A0 * x0 + A1 * x1 + A2 * x2 + y1);
Y = Kp * (x0 - x1) + Ki * x0 + Kd * (x0 - 2 * x1 + x2) + Y1;
{ @FIX(Kp,-15) /\ @FIX(Ki,-15) /\ @FIX(Kd,-15) /\ @FIX(x0,-15) /\ @FIX(x1,-15) /\ @FIX(x2,-15) /\
  @FIX(y1,-15)
  /\ Kp in [0.25,0.5] /\ Ki in [0,0.0625] /\ Kd in [0,0.125]
  /\ x0 in [-0.5,0.5] /\ x0 - x1 in [-1b-6,1b-6] /\ x1 - x2 in [-1b-6,1b-6]
  /\ y1 in [-0.9,0.9] /\ y1 - Y1 in [-1b-10,1b-10]
  -> y - Y in ? /\ y in ? }
