/* Runs a trace of standard input on a new node; a line for each record. */
#include "call.h"

struct replay {
    struct caller caller;
    uint8_t file[TRACE_MOST + 1]; /* one more shows a file too long */
};

static bool ends_replay(const struct record *record,
                        const struct answer *answer)
{
    return record->kind == CALL_TABLE && answer->refusal != NOT_REFUSED;
}

/* Of a trace that is not refused: its records, one after another. */
static void run_all(struct caller *caller, struct input *input)
{
    struct record record;

    for (uint32_t number = 1; record_take(input, &record); number++) {
        call_begin(caller, number, &record);
        struct answer answer = call_make(caller, &record);

        lines_end(&caller->lines);
        if (ends_replay(&record, &answer)) {
            return;
        }
    }
}

int main(void)
{
    static struct replay replay; /* zeros: a new node */
    struct lines *lines = &replay.caller.lines;
    size_t length = input_read(replay.file, sizeof replay.file);
    int refusal = trace_refused(replay.file, length);

    if (refusal != NOT_REFUSED) {
        lines_text(lines, "refused");
        lines_number(lines, (uint32_t)refusal);
        lines_end(lines);
        return lines_finish(lines);
    }
    struct input input = {replay.file + TRACE_HEADER, length - TRACE_HEADER};

    run_all(&replay.caller, &input);
    return lines_finish(lines);
}
