/* Tests a plus of five cells, and says where a reading lies in it. */
#include <stdio.h>

#include <robequarry.h>

int main(void) {
    static const uint8_t plus[] = {1, 0, 1, 0, 3, 0, 3, 2, 3, 2, 1, 2};
    static rq_holder holder;
    rq_reply reply = RQ_REPLY_INIT;

    rq_fresh(&holder);
    rq_begin(&holder, 0, 0, 1, &reply);
    for (size_t i = 0; i < sizeof plus; i++) rq_add(&holder, 0, plus[i], &reply);
    rq_close(&holder, 0, 0, &reply);
    if (reply.number != 0) {
        printf("refused by %d\n", reply.number);
        return 1;
    }
    printf("taken: %d edges from cell (%d, %d)\n", reply.place, reply.col, reply.row);

    rq_reading(&holder, 0, 0, 1.0f, 1.25f, &reply);
    printf("the reading (1, 1.25) is %s\n", reply.word == RQ_WORD_INSIDE ? "inside" : "not inside");
    return reply.word == RQ_WORD_INSIDE ? 0 : 1;
}
