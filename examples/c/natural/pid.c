/* PID controller in 8.8 fixed point. POST: i16 measured value (little endian). ?set with i16: setpoint. Reply: output 0..1000 as u16. */
#include <fc.h>

struct state {
    fc_i32 setpoint;
    fc_i32 integral;
    fc_i32 last;
    fc_i32 out;
    fc_u8 primed;
};
FC_VARS(struct state);

#define KP 512
#define KI 32
#define KD 128

static fc_i32 clamp(fc_i32 x, fc_i32 lo, fc_i32 hi)
{
    return x < lo ? lo : x > hi ? hi : x;
}

fc_u64 run(const struct fc_request *request, struct state *s, fc_u64 length)
{
    if (request->method == FC_POST) {
        if (length != 2)
            return FC_BAD_REQUEST;
        fc_i16 value = (fc_i16)(request->payload[0] | request->payload[1] << 8);
        if (fc_query_is(request, "set")) {
            s->setpoint = value;
        } else {
            fc_i32 error = s->setpoint - value;
            fc_i32 derivative = s->primed ? value - s->last : 0;
            s->integral = clamp(s->integral + error, -8000, 8000);
            fc_i32 out = (KP * error + KI * s->integral - KD * derivative) / 256;
            out = clamp(out, 0, 1000);
            if (out != s->out)
                notify();
            s->out = out;
            s->last = value;
            s->primed = 1;
        }
    }
    fc_u16 reply = s->out;
    reply_put(&reply, 2);
    return FC_OK;
}
