/*
 * How a target's floats are set at the calls, and what becomes of subnormal numbers. Of one cell alone its centre is inside and nothing
 * else, however near: a subnormal number that is taken for zero is told from it there. The status is 1 where a reply is not as it must
 * be with the modes off. With flush-to-zero on, the reply is only shown.
 */
#include <string.h>

#include "robequarry.h"
#include "text.h"

static rq_holder holder;

static void draw_cell(void) {
    static const uint8_t letters[] = {1, 0, 3, 2};
    rq_reply reply = {0, 0, 0, 0, 0, 0, 0};
    rq_fresh(&holder);
    rq_begin(&holder, 0, 0, 0, &reply);
    for (int i = 0; i < 4; i++) rq_add(&holder, 0, letters[i], &reply);
    rq_close(&holder, 0, 0, &reply);
}

static uint16_t reading(uint32_t angle_bits) {
    float angle;
    rq_reply reply = {0, 0, 0, 0, 0, 0, 0};
    memcpy(&angle, &angle_bits, sizeof angle);
    rq_reading(&holder, 0, 0, angle, 0.0f, &reply);
    return reply.number == 0 ? reply.word : reply.number;
}

/* Readings with the angle given by its bits, and what each must be: a word, or a refusal. */
static const struct {
    const char *name;
    uint32_t bits;
    uint16_t expected;
} readings[] = {
    {"zero", 0x00000000, RQ_WORD_INSIDE},
    {"minus zero", 0x80000000, RQ_WORD_INSIDE},
    {"the least subnormal", 0x00000001, RQ_WORD_OUTSIDE},
    {"the greatest subnormal", 0x007fffff, RQ_WORD_OUTSIDE},
    {"the least normal", 0x00800000, RQ_WORD_OUTSIDE},
    {"minus the least subnormal", 0x80000001, RQ_REFUSED_CELL},
    {"a quiet NaN", 0x7fc00001, RQ_REFUSED_CELL},
    {"a signalling NaN", 0x7f800001, RQ_REFUSED_CELL},
    {"infinity", 0x7f800000, RQ_REFUSED_CELL},
};

static const char *name_of(uint16_t reply) {
    return reply == RQ_WORD_INSIDE ? "inside" : reply == RQ_WORD_OUTSIDE ? "outside" : reply == RQ_REFUSED_CELL ? "refused by 11" : "?";
}

/* One line of replies. Returns how many are not as they must be. */
static int show(const char *modes) {
    int wrong = 0;
    put(modes);
    for (uint32_t i = 0; i < sizeof readings / sizeof readings[0]; i++) {
        const uint16_t reply = reading(readings[i].bits);
        const bool right = reply == readings[i].expected;
        wrong += !right;
        put(i == 0 ? ": " : ", ");
        put(readings[i].name);
        put(" ");
        put(name_of(reply));
        put(right ? "" : " (wrong)");
    }
    put("\n");
    return wrong;
}

static bool is_on(uint32_t mode) {
    return (port_float_control() & mode) != 0;
}

static bool show_modes(void) {
    put(port_float_modes.name);
    if (port_float_modes.flush != 0) {
        put(" ");
        put_hex(port_float_control());
        put(is_on(port_float_modes.flush) ? ", flush-to-zero on" : ", flush-to-zero off");
    }
    if (port_float_modes.default_nan != 0) put(is_on(port_float_modes.default_nan) ? ", default NaN on" : ", default NaN off");
    put("\n");
    return !is_on(port_float_modes.flush) && !is_on(port_float_modes.default_nan);
}

int program(uint32_t first, uint32_t second) {
    (void)first;
    (void)second;
    draw_cell();
    bool right = show_modes();
    right &= show("as it starts") == 0;
    right &= !is_on(port_float_modes.flush) && !is_on(port_float_modes.default_nan);
    if (port_flush_to_zero(true)) {
        show("with flush-to-zero on, which no caller may set");
        port_flush_to_zero(false);
        right &= show("with it off again") == 0;
    }
    return right ? 0 : 1;
}
