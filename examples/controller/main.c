/*
 * A knee's controller. A tablet sends requests over a line, one at a time, and each gets an answer. Beside that a reading of the sensors is
 * located every millisecond, in an interrupt, also while an outline is closed. What is at work survives a reset and a power loss.
 * docs/DEVICE.md tells why it is so.
 *
 * Requests and answers are the bodies of frames (rq_frame):
 *
 *     request   tag, kind, and what the kind says below
 *     answer    the request's tag and kind, the number of this start (its low byte), a status, the seven numbers of a reply, low byte
 *               first, and what the kind says below
 *
 * The tag is the tablet's. A request that has the tag and the bytes of the one before is not done again: it gets the same answer again. So
 * a tablet that gets no answer repeats its request, and no letter is added twice.
 */
#include "board.h"
#include "robequarry.h"
#include "robequarry_texts.h"
#include "store.h"

enum kind {
    HELLO = 0,   /* version (3 bytes), cause of the start, what each of the eight places got at the start (a byte each: enum place) */
    CALL = 1,    /* request: eleven bytes, for rq_call. A close that is taken and a clear are stored before they are answered */
    DRAFT = 2,   /* request: party */
    CHECK = 3,   /* request: party, place */
    SAVE = 4,    /* request: party, place; answer: the image */
    RESTORE = 5, /* request: party, place, the image. It is stored before it is answered */
    COUNTS = 6,  /* answer: the numbers of `counts`, four bytes each */
    TRIAL_RESET = 0x70,  /* request: four bytes, the ticks from the next close to a reset. The trial kinds are for the test only */
    TRIAL_HANG = 0x71,   /* no answer: the watchdog's turn */
    TRIAL_DAMAGE = 0x72  /* request: a byte of the holder, two bytes, and what it is changed by */
};
enum status { DONE = 0, NO_REQUEST = 1, NOT_STORED = 2 };
enum place { EMPTY = 0, AT_WORK = 1, LOST = 2 };
enum { SPOTS = RQ_PARTIES * RQ_PLACES, START_SPOT = SPOTS };

static rq_holder holder; /* the main loop writes, and the interrupt asks */
static uint8_t restored[SPOTS];
static uint32_t starts;

static volatile struct counts {
    uint32_t ticks, inside, outside, undecided, refused; /* of the readings */
    uint32_t frames, bad_frames, checks, damages;
} counts;

/*
 * The reading. The sensors of this controller are a swing of the knee, back and forth. `setting` is what the actuator gets: the drawn
 * setting only where the reading is surely inside, and the safe one in every other case.
 */
enum setting { SAFE, DRAWN };
static volatile enum setting setting;

static void sense(float *angle, float *load) {
    static uint32_t phase;
    phase = (phase + 1) % 1024;
    *angle = (float)(phase < 512 ? phase : 1024 - phase) * 0.0078125f;
    *load = (float)phase * 0.00390625f;
}

void tick(void) {
    rq_reply reply = RQ_REPLY_INIT;
    float angle, load;
    sense(&angle, &load);
    rq_reading(&holder, 0, 0, angle, load, &reply);
    setting = reply.number == 0 && reply.word == RQ_WORD_INSIDE ? DRAWN : SAFE;
    counts.ticks++;
    if (reply.number != 0) {
        counts.refused++;
    } else if (reply.word == RQ_WORD_INSIDE) {
        counts.inside++;
    } else if (reply.word == RQ_WORD_OUTSIDE) {
        counts.outside++;
    } else {
        counts.undecided++;
    }
}

static void log_place(const char *what, uint32_t spot, const char *text) {
    log_text(what);
    log_text(": party ");
    log_number(spot / RQ_PLACES);
    log_text(", place ");
    log_number(spot % RQ_PLACES);
    log_text(": ");
    log_text(text);
    log_text("\n");
}

static uint8_t party_of(uint32_t spot) {
    return (uint8_t)(spot / RQ_PLACES);
}

static uint8_t place_of(uint32_t spot) {
    return (uint8_t)(spot % RQ_PLACES);
}

/* Stores what is at work at a place, or that nothing is. */
static bool store(uint32_t spot) {
    static uint8_t image[RQ_IMAGE_BYTES];
    rq_reply reply = RQ_REPLY_INIT;
    rq_save(&holder, party_of(spot), place_of(spot), image, sizeof image, &reply);
    const bool stored = reply.number == 0 && store_write(spot, image, sizeof image);
    const char *const why = reply.number != 0 ? rq_refusal_text(reply.number) : "Flash does not hold it.";
    log_place(stored ? "stored" : "not stored", spot, stored ? "whole" : why);
    return stored;
}

/* Puts to work what is stored for a place. Where that is refused, the place is left empty. */
static enum place take_stored(uint32_t spot, const uint8_t *image, uint32_t count) {
    rq_reply reply = RQ_REPLY_INIT;
    rq_restore(&holder, party_of(spot), place_of(spot), image, count, &reply);
    if (reply.number != 0) {
        log_place("not restored", spot, rq_refusal_text(reply.number));
        return LOST;
    }
    return reply.word == RQ_NO_WORD ? EMPTY : AT_WORK;
}

static void restore_all(void) {
    static const char *const causes[] = {"power", "watchdog", "fault", "asked for"};
    const uint8_t *bytes;
    uint32_t count = 0;
    uint8_t next[4];
    if (store_open(START_SPOT, &bytes, &count) == STORED_RECORD && count == 4) {
        for (uint32_t i = 0; i < 4; i++) starts |= (uint32_t)bytes[i] << (8 * i);
    }
    starts++;
    for (uint32_t i = 0; i < 4; i++) next[i] = (uint8_t)(starts >> (8 * i));
    store_write(START_SPOT, next, sizeof next);
    log_text("start ");
    log_number(starts);
    log_text(": ");
    log_text(causes[start_cause()]);
    log_text("; version " RQ_VERSION "\n");

    rq_fresh(&holder);
    for (uint32_t spot = 0; spot < SPOTS; spot++) {
        const enum stored stored = store_open(spot, &bytes, &count);
        restored[spot] = stored == STORED_RECORD ? (uint8_t)take_stored(spot, bytes, count) : stored == STORED_DAMAGED ? LOST : EMPTY;
        if (stored == STORED_DAMAGED) log_place("not restored", spot, "Flash is damaged.");
        if (restored[spot] == AT_WORK) log_place("restored", spot, "at work");
    }
}

/* Checks a place. What is damaged is taken away first, so that nothing asks it, and then restored from what is stored. */
static void check(uint32_t spot) {
    rq_reply reply = RQ_REPLY_INIT;
    uint32_t count = 0;
    rq_check(&holder, party_of(spot), place_of(spot), &reply);
    counts.checks++;
    if (reply.number != RQ_REFUSED_DAMAGED) return;
    counts.damages++;
    log_place("damaged", spot, rq_refusal_text(reply.number));
    rq_clear(&holder, party_of(spot), place_of(spot), &reply);
    const uint8_t *const image = store_bytes(spot, &count);
    restored[spot] = image != 0 ? (uint8_t)take_stored(spot, image, count) : LOST;
    if (restored[spot] == AT_WORK) log_place("restored", spot, "at work");
}

/* The request that was done last, and its answer. */
static uint8_t request[RQ_FRAME_BODY], done[RQ_FRAME_BODY], answer[RQ_FRAME_BODY];
static uint32_t done_count, answer_count;
enum { HEAD = 4, REPLY_BYTES = 2 * RQ_REPLY_NUMBERS };

static void answer_byte(uint32_t byte) {
    answer[answer_count++] = (uint8_t)byte;
}

static void answer_number(uint32_t number) {
    for (uint32_t i = 0; i < 4; i++) answer_byte(number >> (8 * i));
}

static void answer_reply(const rq_reply *reply) {
    const uint16_t numbers[] = {reply->number, reply->word, reply->place, reply->piece, reply->length, reply->col, reply->row};
    for (uint32_t i = 0; i < RQ_REPLY_NUMBERS; i++) {
        answer[HEAD + 2 * i] = (uint8_t)numbers[i];
        answer[HEAD + 2 * i + 1] = (uint8_t)(numbers[i] >> 8);
    }
}

#ifdef TRIAL
static uint32_t ticks_to_reset;

static void begin_trial(const uint8_t *call) {
    if (call[0] != RQ_CALL_CLOSE || ticks_to_reset == 0) return;
    trial_reset_after(ticks_to_reset);
    ticks_to_reset = 0;
}
#else
static void begin_trial(const uint8_t *call) {
    (void)call;
}
#endif

/* A call. What it has put to work, or taken away, is stored. */
static enum status make_call(const uint8_t *call, rq_reply *reply) {
    begin_trial(call);
    if (!rq_call(&holder, call, RQ_CALL_BYTES, reply)) return NO_REQUEST;
    if (reply->number != 0) {
        log_text("refused: ");
        log_text(rq_refusal_text(reply->number));
        log_text("\n");
        return DONE;
    }
    if (call[0] != RQ_CALL_CLOSE && call[0] != RQ_CALL_CLEAR) return DONE;
    const uint32_t spot = (uint32_t)call[1] * RQ_PLACES + call[2];
    restored[spot] = call[0] == RQ_CALL_CLOSE ? AT_WORK : EMPTY;
    if (call[0] == RQ_CALL_CLOSE) log_place("closed", spot, rq_word_text(reply->word));
    return store(spot) ? DONE : NOT_STORED;
}

static enum status restore_image(const uint8_t *bytes, rq_reply *reply) {
    rq_restore(&holder, bytes[0], bytes[1], bytes + 2, RQ_IMAGE_BYTES, reply);
    if (reply->number != 0) return DONE;
    const uint32_t spot = (uint32_t)bytes[0] * RQ_PLACES + bytes[1];
    restored[spot] = reply->word == RQ_NO_WORD ? EMPTY : AT_WORK;
    return store(spot) ? DONE : NOT_STORED;
}

#ifdef TRIAL
static uint32_t number_at(const uint8_t *bytes) {
    return (uint32_t)bytes[0] | (uint32_t)bytes[1] << 8 | (uint32_t)bytes[2] << 16 | (uint32_t)bytes[3] << 24;
}

static enum status make_trial(enum kind kind, const uint8_t *rest, uint32_t count) {
    if (kind == TRIAL_RESET && count == 4) {
        ticks_to_reset = number_at(rest);
        return DONE;
    }
    if (kind == TRIAL_DAMAGE && count == 3) {
        const uint32_t at = (uint32_t)rest[0] | (uint32_t)rest[1] << 8;
        if (at < sizeof holder) ((volatile uint8_t *)&holder)[at] ^= rest[2];
        return DONE;
    }
    if (kind == TRIAL_HANG) {
        for (;;) {
        }
    }
    return NO_REQUEST;
}
#endif

/* Does what stands in the request, and makes the answer's status and the rest of it. */
static enum status serve(enum kind kind, const uint8_t *rest, uint32_t count, rq_reply *reply) {
    switch (kind) {
        case HELLO:
            answer_byte(RQ_VERSION_MAJOR);
            answer_byte(RQ_VERSION_MINOR);
            answer_byte(RQ_VERSION_PATCH);
            answer_byte(start_cause());
            for (uint32_t spot = 0; spot < SPOTS; spot++) answer_byte(restored[spot]);
            return DONE;
        case CALL:
            return count == RQ_CALL_BYTES ? make_call(rest, reply) : NO_REQUEST;
        case DRAFT:
            if (count != 1) return NO_REQUEST;
            rq_draft(&holder, rest[0], reply);
            return DONE;
        case CHECK:
            if (count != 2) return NO_REQUEST;
            rq_check(&holder, rest[0], rest[1], reply);
            return DONE;
        case SAVE:
            if (count != 2) return NO_REQUEST;
            rq_save(&holder, rest[0], rest[1], answer + answer_count, RQ_IMAGE_BYTES, reply);
            if (reply->number == 0) answer_count += RQ_IMAGE_BYTES;
            return DONE;
        case RESTORE:
            return count == 2 + RQ_IMAGE_BYTES ? restore_image(rest, reply) : NO_REQUEST;
        case COUNTS:
            answer_number(counts.ticks);
            answer_number(counts.inside);
            answer_number(counts.outside);
            answer_number(counts.undecided);
            answer_number(counts.refused);
            answer_number(counts.frames);
            answer_number(counts.bad_frames);
            answer_number(counts.checks);
            answer_number(counts.damages);
            answer_number(line_lost());
            answer_number(stack_used());
            return DONE;
        default:
#ifdef TRIAL
            return make_trial(kind, rest, count);
#else
            return NO_REQUEST;
#endif
    }
}

static bool is_repeated(uint32_t count) {
    if (count != done_count) return false;
    uint32_t i = 0;
    while (i < count && request[i] == done[i]) i++;
    return i == count;
}

static void respond(uint32_t count) {
    static uint8_t frame[RQ_FRAME_BODY + RQ_FRAME_BYTES];
    rq_reply reply = RQ_REPLY_INIT;
    if (count < 2) return;
    counts.frames++;
    if (!is_repeated(count)) {
        for (uint32_t i = 0; i < count; i++) done[i] = request[i];
        done_count = count;
        answer_count = HEAD + REPLY_BYTES;
        const enum status status = serve((enum kind)request[1], request + 2, count - 2, &reply);
        answer[0] = request[0];
        answer[1] = request[1];
        answer[2] = (uint8_t)starts;
        answer[3] = (uint8_t)status;
        answer_reply(&reply);
    }
    rq_frame(answer, answer_count, frame, sizeof frame, &reply);
    if (reply.number == 0) line_put(frame, reply.place);
}

/*
 * The bytes that have come and are not yet a frame. A byte with which no frame begins is passed over. If the bytes of a whole frame are
 * refused, or the rest of one does not come within LATE milliseconds, its first byte is passed over, and the search goes on behind it.
 */
enum { LATE = 50, WINDOW = RQ_FRAME_BODY + RQ_FRAME_BYTES };
static uint8_t window[WINDOW];
static uint32_t have, last_byte_at;

static void pass_over(uint32_t count) {
    have -= count;
    for (uint32_t i = 0; i < have; i++) window[i] = window[i + count];
}

/* How many bytes the frame at the front of the window has, if one can begin there; else 0. 4 are needed to know. */
static uint32_t frame_length(void) {
    if (window[0] != 0x52 || (have > 1 && window[1] != 0x51)) return 0;
    if (have < 4) return 4;
    const uint32_t body = (uint32_t)window[2] | (uint32_t)window[3] << 8;
    return body <= RQ_FRAME_BODY ? body + RQ_FRAME_BYTES : 0;
}

static void search(void) {
    rq_reply reply = RQ_REPLY_INIT;
    while (have > 0) {
        const uint32_t length = frame_length();
        if (length == 0) {
            pass_over(1);
            continue;
        }
        if (have < length) {
            if (counts.ticks - last_byte_at < LATE) return;
            counts.bad_frames++;
            pass_over(1);
            continue;
        }
        rq_unframe(window, length, request, sizeof request, &reply);
        if (reply.number != 0) {
            counts.bad_frames++;
            pass_over(1);
            continue;
        }
        pass_over(length);
        respond(reply.place);
    }
}

static void log_counts(void) {
    log_text("ticks ");
    log_number(counts.ticks);
    log_text(", inside ");
    log_number(counts.inside);
    log_text(", outside ");
    log_number(counts.outside);
    log_text(", undecided ");
    log_number(counts.undecided);
    log_text(", refused ");
    log_number(counts.refused);
    log_text(", bad frames ");
    log_number(counts.bad_frames);
    log_text(", stack ");
    log_number(stack_used());
    log_text("\n");
}

/* The watchdog is fed where the main loop goes round and the tick has come since it was fed last. */
int main(void) {
    uint32_t fed = 0, checked = 0, logged = 0, spot = 0;
    watchdog_start();
    restore_all();
    tick_start();
    for (;;) {
        uint8_t byte;
        if (counts.ticks != fed) {
            fed = counts.ticks;
            watchdog_feed();
        }
        while (have < WINDOW && line_get(&byte)) {
            window[have++] = byte;
            last_byte_at = counts.ticks;
        }
        search();
        if (counts.ticks - checked >= 100) {
            checked = counts.ticks;
            check(spot);
            spot = (spot + 1) % SPOTS;
        }
        if (counts.ticks - logged >= 1000) {
            logged = counts.ticks;
            log_counts();
        }
        idle();
    }
}
