/* The worked example of the rules, through the header: prints its events as the listing does.
 *   cc include/worked_example.c -I include -L target/staticlib -ldoorquill */
#include "doorquill.h"
#include <inttypes.h>
#include <stdio.h>

static uint64_t number(const uint8_t *bytes, int count)
{
    uint64_t n = 0;
    for (int i = 0; i < count; i++)
        n = n << 8 | bytes[i];
    return n;
}

static void print(const uint8_t *events, size_t length, const uint8_t *values)
{
    for (size_t at = 0; at < length; at += events[at] == 1 ? 9 : 13) {
        const uint8_t *event = events + at;
        if (event[0] == 1) {
            printf("time %" PRIu64 "\n", number(event + 1, 8));
        } else if (event[0] == 4) {
            printf("real %" PRIu64 " %016" PRIx64 "\n", number(event + 1, 4), number(event + 5, 8));
        } else {
            const uint8_t *value = values + number(event + 5, 4);
            printf("%s %" PRIu64 " ", event[0] == 2 ? "two" : "nine", number(event + 1, 4));
            for (uint64_t i = 0; i < number(event + 9, 4); i++)
                printf("%02x", value[i]);
            printf("\n");
        }
    }
}

int main(void)
{
    /* id 1 a nine-state signal, ids 2 and 3 a two-state vector, id 4 a byte */
    const uint8_t kinds[] = {DOORQUILL_NINE_STATE, DOORQUILL_TWO_STATE_VEC, DOORQUILL_TWO_STATE_VEC, DOORQUILL_U8};
    const uint32_t refs[] = {1, 2, 2, 3}, vecs[] = {0, 1, 1, 0};
    const uint32_t mins[] = {2}, maxs[] = {3}, vec_refs[] = {2};
    const uint8_t states[] = {1};
    const uint8_t input[] = {
        /* a snapshot: time 0, a value for each id */
        'S', 'N', 'P', 0, 0, 0, 0, 0, 0, 0, 0, 0, 0, 0, 0, 0,
        3, 1, 0, 0x2a, 'E', 'S', 'N', 0,
        /* a cycle: time 10, id 3 takes 1; 5 later id 1 takes 4; the end */
        'C', 'Y', 'C', 0, 10, 0, 0, 0, 0, 0, 0, 0,
        3, 1, 0, 5, 1, 4, 0, 0x7f, 'E', 'C', 'Y', 0,
        /* the tailer */
        'T', 'A', 'I', 0, 0, 0, 0, 0, 0, 0, 0, 0,
    };
    /* room that is always enough for events, and what check 6 asks for: 1 value byte, 1 mask byte, 2 flag bytes, 1 number */
    uint8_t events[13 * sizeof input], values[64], room[4];
    uint32_t list[1];
    doorquill_answer answer = doorquill_read_sections(kinds, 4, refs, 4, vecs, 4, mins, 1, maxs, 1, states, 1, vec_refs, 1, false, false,
                                                      input, sizeof input, events, sizeof events, values, sizeof values, room, sizeof room, list, 1);
    if (answer.number != DOORQUILL_DONE) {
        printf("refused %" PRIu64 " %" PRIu64 "\n", answer.number, answer.place);
        return 1;
    }
    print(events, answer.events, values);
    printf("done %" PRIu64 " %" PRIu64 "\n", answer.read, answer.steps);
    return 0;
}
