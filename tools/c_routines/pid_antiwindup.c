/* A PID regulator in Q15 with clamped output and conditional integration (anti-windup).
   ranges: s_integ=-1073741824..1073741823 s_prev=-32768..32767 ref=-32768..32767
   meas=-32768..32767 kp=0..32767 ki=0..32767 kd=0..32767 */
#include <stdint.h>
typedef struct { int32_t integ; int16_t prev; } pid_state;
int16_t pid_antiwindup(pid_state *s, int16_t ref, int16_t meas, int16_t kp, int16_t ki, int16_t kd)
{
    int32_t err = (int32_t)ref - meas;
    if (err > 32767) err = 32767;
    else if (err < -32768) err = -32768;
    int32_t p = (kp * err) >> 15;
    int32_t d = (kd * (err - s->prev)) >> 15;
    int32_t u = p + (s->integ >> 15) + d;
    int32_t out = u;
    if (out > 32767) out = 32767;
    if (out < -32768) out = -32768;
    if (out == u) {
        int32_t next = s->integ + ki * err;
        if (next > 1073741823) next = 1073741823;
        if (next < -1073741824) next = -1073741824;
        s->integ = next;
    }
    s->prev = (int16_t)err;
    return (int16_t)out;
}
