# WebRTC SPL WebRtcSpl_SqrtLocal: x in [0.5,1) Q31, h = (x - 1) / 2 in Q15, 1 + h - h^2/2 + h^3/2
# - 0.625 h^4 + 0.875 h^5, truncated to Q15 in the powers
B = fixed<-31,dn>(x / 2);
h = fixed<-15,dn>(B - 0.5);
h2 = h * h;
a4 = fixed<-15,dn>(-h2);
h4 = fixed<-15,dn>(a4 * a4);
h5 = fixed<-15,dn>(h * h4);
k2 = fixed<-15,dn>(h2);
o = B + 0.5 + fixed<-31,dn>(-h2 / 2) + -0.625 * h4 + 0.875 * h5 + fixed<-31,dn>(h * k2 / 2);
H = (x - 1) / 2;
O = 1 + H - H * H / 2 + H * H * H / 2 - 0.625 * (H * H * H * H) + 0.875 * (H * H * H * H * H);
{ @FIX(x,-31) /\ x in [0.5,2147483647b-31] -> o in ? /\ o - O in ? }
