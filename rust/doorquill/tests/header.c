/* Every call of the header, as C and as C++: empty inputs, and what document 01 says of them. Prints the calls that answered otherwise. */
#include "doorquill.h"
#include <stdio.h>

static int bad;

static void held(const char *call, doorquill_answer answer, uint64_t number, uint64_t read)
{
    if (answer.number != number || answer.place != 0 || answer.read != read) {
        printf("%s: %u at %u\n", call, (unsigned)answer.number, (unsigned)answer.place);
        bad = 1;
    }
}

#define NO_SIGNALS NULL, 0, NULL, 0, NULL, 0
#define NO_TABLES NO_SIGNALS, NULL, 0, NULL, 0, NULL, 0, NULL, 0
#define NO_ROOMS NULL, 0, NULL, 0, NULL, 0, NULL, 0

int main(void)
{
    const uint8_t tailer[] = {'T', 'A', 'I', 0, 0, 0, 0, 0, 0, 0, 0, 0};
    uint8_t out[12];
    size_t i;
    /* the six numbers, and a vector's record on a stride of sixteen bytes */
    if (sizeof(doorquill_answer) != 48 || sizeof(doorquill_vector) != 16 || offsetof(doorquill_vector, reference) != 12) {
        printf("another layout\n");
        return 1;
    }
    held("read_sections", doorquill_read_sections(NO_TABLES, false, false, NULL, 0, NO_ROOMS), DOORQUILL_INPUT_ENDS, 0);
    held("read_sections", doorquill_read_sections(NO_TABLES, true, true, tailer, 12, NO_ROOMS), DOORQUILL_DONE, 12);
    held("read_sections_lent", doorquill_read_sections_lent(NO_SIGNALS, NULL, 0, NULL, 0, false, tailer, 12, NO_ROOMS), DOORQUILL_DONE, 12);
    held("read_changes", doorquill_read_changes(NO_TABLES, NULL, 0, NO_ROOMS), DOORQUILL_DONE, 0);
    held("time_rule", doorquill_time_rule(NULL, 0, NULL, 0, NULL, 0), DOORQUILL_DONE, 0);
    held("read_back", doorquill_read_back(NO_TABLES, false, tailer, 12, NULL, 0), DOORQUILL_DONE, 12);
    held("bench", doorquill_bench(NULL, 0, NULL, 0, 1, 1, 2, NULL, 0), DOORQUILL_BENCH, 0);
    held("bench", doorquill_bench(NULL, 0, NULL, 0, 1, 2, 3, NULL, 0), DOORQUILL_DONE, 0);
    held("write_sections", doorquill_write_sections(NO_TABLES, false, NULL, 0, out, 11), DOORQUILL_FULL, 0);
    held("write_sections", doorquill_write_sections(NO_TABLES, false, NULL, 0, out, 12), DOORQUILL_DONE, 0);
    for (i = 0; i < 12; i++)
        bad |= out[i] != tailer[i];
    printf(bad ? "otherwise\n" : "as it should be\n");
    return bad;
}
