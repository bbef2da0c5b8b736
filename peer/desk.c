/* Runs one node on the records of standard input; a line for each. */
#include "call.h"

enum {
    INPUT_MOST = 65536
};

/*
 * The desk's own kinds, beside those that a trace has. A recorder writes a
 * plan's single sends, so a trace has no plan (02, K6).
 */
enum {
    CALL_PLAN = 10,
    CALL_COUNTS = 20
};

struct desk {
    struct caller caller;
    uint8_t input[INPUT_MOST + 1]; /* one more shows an input too long */
};

static bool is_known(uint8_t kind)
{
    return kind_is_known(kind) || kind == CALL_PLAN || kind == CALL_COUNTS;
}

static void run_plan(struct caller *caller, const struct record *record)
{
    struct planned planned;
    int refusal =
        node_plan(&caller->node, caller->store, sizeof caller->store,
                  record->index, record->bytes, record->length, &planned);

    lines_number(&caller->lines, (uint32_t)refusal);
    if (refusal == NOT_REFUSED) {
        lines_number(&caller->lines, planned.accepted);
        lines_number(&caller->lines, (uint32_t)planned.stopped);
    }
}

static void run_counts(struct caller *caller, const struct record *record)
{
    struct counts counts;
    int refusal = node_counts(&caller->node, record->index, &counts);

    lines_number(&caller->lines, (uint32_t)refusal);
    if (refusal == NOT_REFUSED) {
        lines_number(&caller->lines, counts.accepted);
        lines_number(&caller->lines, counts.confirmed);
    }
}

/* A kind that a trace has too. */
static void run_call(struct caller *caller, const struct record *record)
{
    struct answer answer = call_make(caller, record);

    lines_bytes(&caller->lines, answer.bytes, answer.length);
}

static void run_record(struct caller *caller, const struct record *record)
{
    switch (record->kind) {
    case CALL_PLAN:
        run_plan(caller, record);
        break;
    case CALL_COUNTS:
        run_counts(caller, record);
        break;
    default:
        run_call(caller, record);
        break;
    }
}

/* The word that ends the run, or NULL at the end of a whole input. */
static const char *run_all(struct caller *caller, struct input *input,
                           uint32_t *number)
{
    struct record record;

    for (*number = 1; input->left > 0; ++*number) {
        if (!record_take(input, &record)) {
            return "torn";
        }
        if (!is_known(record.kind)) {
            return "unknown";
        }
        call_begin(caller, *number, &record);
        run_record(caller, &record);
        lines_end(&caller->lines);
    }
    return NULL;
}

int main(void)
{
    static struct desk desk; /* zeros: a new node */
    struct lines *lines = &desk.caller.lines;
    struct input input = {desk.input,
                          input_read(desk.input, sizeof desk.input)};
    uint32_t number;

    if (input.left > INPUT_MOST) {
        lines_text(lines, "too long");
        lines_end(lines);
        return lines_finish(lines);
    }
    const char *word = run_all(&desk.caller, &input, &number);

    if (word != NULL) {
        lines_text(lines, word);
        lines_number(lines, number);
        lines_end(lines);
    }
    return lines_finish(lines);
}
