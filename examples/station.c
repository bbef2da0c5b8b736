/* A station computer's driver: a plan of moves goes up to each of the two motors of a pedestal, and their readings come
 * down, four end points over one port. The moves are known beforehand: all that are left are handed over at once, and
 * the node accepts as many as its window takes. A reading is sent when there is one. The pedestal is a second node at
 * the other end of a port in memory, which loses every seventh frame. Both drivers do the same in turn: hand over what
 * is to go, write to the port what waits and report each frame's end when it has left, read from the port what came,
 * tick. Prints how it went; ends with status 1 where a reading is missing or out of order. */
#include <stdio.h>
#include <string.h>

#include "shelugvar.h"

enum {
    GROUND = 64,
    PEDESTAL = 65, /* logical addresses */
    MOVES = 40,    /* of each motor; a plan has at most SHELUGVAR_PLAN_MOST, 64 */
    WINDOW = 8,
    PAYLOAD = 2, /* bytes of a position, in tenths of a degree */
    PORT_FRAMES = 64
};

/* The entries, the same at both ends: what one end sends over an entry's channel the other receives. A sender tries 20
 * times more, every 4 ticks. */
enum {
    AZIMUTH_PLAN,
    ELEVATION_PLAN,
    AZIMUTH_READING,
    ELEVATION_READING,
    ENTRIES
};
#define SENDS_TO(remote, channel) SHELUGVAR_SENDER(remote, channel, 20, WINDOW, PAYLOAD, 4)
#define RECEIVES_FROM(remote, channel) SHELUGVAR_RECEIVER(remote, channel, WINDOW, PAYLOAD)
static const uint8_t ground_table[] = {SHELUGVAR_HEAD(ENTRIES, GROUND, SHELUGVAR_PROTOCOL_ID),
                                       SENDS_TO(PEDESTAL, 1), SENDS_TO(PEDESTAL, 2),
                                       RECEIVES_FROM(PEDESTAL, 3), RECEIVES_FROM(PEDESTAL, 4)};
static const uint8_t pedestal_table[] = {SHELUGVAR_HEAD(ENTRIES, PEDESTAL, SHELUGVAR_PROTOCOL_ID),
                                         RECEIVES_FROM(GROUND, 1), RECEIVES_FROM(GROUND, 2),
                                         SENDS_TO(GROUND, 3), SENDS_TO(GROUND, 4)};

/* One direction of the link: the frames that were written to it and not yet read. */
struct port {
    uint8_t frames[PORT_FRAMES][SHELUGVAR_FRAME_ROOM(PAYLOAD)];
    size_t lengths[PORT_FRAMES], count, lost;
};

/* Positions that go over an entry, or that came over it. */
struct list {
    unsigned positions[MOVES], count;
    unsigned accepted; /* how many of them the node has accepted to send */
    unsigned plans;    /* in how many plans; 0 where they were sent one by one */
};

struct station {
    struct shelugvar_node node;
    uint8_t store[2 * SHELUGVAR_SENDER_STORE(WINDOW, PAYLOAD) + 2 * SHELUGVAR_RECEIVER_STORE(WINDOW, PAYLOAD)];
    struct list lists[ENTRIES];
};

static struct port up, down;
static struct station ground, pedestal;
static int wrong;

static void must(int holds, const char *what)
{
    if (holds)
        return;
    printf("wrong: %s\n", what);
    wrong = 1;
}

static void start(struct station *s, const uint8_t *table)
{
    const size_t length = SHELUGVAR_TABLE_HEAD + ENTRIES * SHELUGVAR_TABLE_ENTRY;

    must(shelugvar_node_setup(&s->node, s->store, sizeof s->store, table, length) == SHELUGVAR_DONE, "setup");
    for (size_t i = 0; i < ENTRIES; i++)
        must(shelugvar_node_open(&s->node, i) == SHELUGVAR_DONE, "open");
}

static void add(struct list *l, unsigned position)
{
    if (l->count < MOVES)
        l->positions[l->count++] = position;
    else
        must(0, "no more comes than was sent");
}

/* A number of so many bytes, the high byte first. */
static void put(uint8_t *at, unsigned bytes, size_t number)
{
    for (; bytes > 0; bytes--, number >>= 8)
        at[bytes - 1] = (uint8_t)number;
}

/* What of a list is not accepted yet, as a plan's block: how many payloads, where each begins and where the last ends,
 * then the payloads, which here are all of a length. The block's length. */
static size_t write_plan(const struct list *l, uint8_t *block)
{
    const unsigned count = l->count - l->accepted;

    put(block, 2, count);
    for (unsigned k = 0; k <= count; k++)
        put(block + 2 + 4 * k, 4, SHELUGVAR_PLAN_LENGTH(count, k * PAYLOAD));
    for (unsigned k = 0; k < count; k++)
        put(block + SHELUGVAR_PLAN_LENGTH(count, k * PAYLOAD), PAYLOAD, l->positions[l->accepted + k]);
    return SHELUGVAR_PLAN_LENGTH(count, count * PAYLOAD);
}

/* All that is left of a list, as one plan, or as an empty one, which is none the worse. Where the full window stops it,
 * or the sender is not Open yet, nothing is lost: the next turn hands over the rest. */
static void plan_on(struct station *s, size_t entry)
{
    struct list *l = &s->lists[entry];
    uint8_t block[SHELUGVAR_PLAN_LENGTH(MOVES, MOVES * PAYLOAD)];
    const size_t length = write_plan(l, block);
    struct shelugvar_planned planned = {0, 0};

    must(shelugvar_node_plan(&s->node, s->store, sizeof s->store, entry, block, length, &planned) == SHELUGVAR_DONE,
         "plan");
    const enum shelugvar_refusal stop = shelugvar_planned_stop(&planned);

    must(stop == SHELUGVAR_DONE || stop == SHELUGVAR_WINDOW_FULL || stop == SHELUGVAR_WRONG_STATE, "a plan's stop");
    l->accepted += planned.accepted;
    l->plans += planned.accepted != 0;
}

/* As much of a list as its window lets through. A refusal is no loss: the next turn tries again. */
static void send_on(struct station *s, size_t entry)
{
    for (struct list *l = &s->lists[entry]; l->accepted < l->count; l->accepted++) {
        const unsigned position = l->positions[l->accepted];
        const uint8_t payload[PAYLOAD] = {(uint8_t)(position >> 8), (uint8_t)position};

        if (shelugvar_node_send(&s->node, s->store, sizeof s->store, entry, payload, PAYLOAD) != SHELUGVAR_DONE)
            return;
    }
}

/* What waits in the node goes to the port, as long as that has a place. This port takes a frame at once; one on a wire
 * takes its time, and its driver reports the frame's end, and asks for the next, when the last byte has left. */
static void write_port(struct station *s, struct port *p)
{
    static unsigned frames;

    while (p->count < PORT_FRAMES) {
        size_t *length = &p->lengths[p->count];

        if (shelugvar_node_hand_out(&s->node, s->store, sizeof s->store, p->frames[p->count], sizeof p->frames[0],
                                    length) != SHELUGVAR_DONE ||
            *length == 0)
            return;
        must(shelugvar_node_report(&s->node) == SHELUGVAR_DONE, "report");
        if (++frames % 7 == 0)
            p->lost++;
        else
            p->count++;
    }
}

/* What came goes to the node. A block belongs to the entry that the arrival names: at the pedestal it has moves, of
 * which each turns that motor and gives a reading to send; at the ground it has readings. */
static void read_port(struct station *s, struct port *p)
{
    uint8_t block[SHELUGVAR_BLOCK_ROOM(WINDOW, PAYLOAD)];
    struct shelugvar_arrived arrived;

    for (size_t f = 0; f < p->count; f++) {
        if (shelugvar_node_arrival(&s->node, s->store, sizeof s->store, block, sizeof block, p->frames[f],
                                   p->lengths[f], &arrived) != SHELUGVAR_DONE ||
            shelugvar_arrived_what(&arrived) != SHELUGVAR_WAS_DATA)
            continue;
        for (unsigned k = 0; k < block[0] * 256u + block[1]; k++) {
            const uint8_t *payload = block + block[4 + 4 * k] * 256u + block[5 + 4 * k];

            add(&s->lists[arrived.entry], payload[0] * 256u + payload[1]);
            if (s == &pedestal)
                add(&s->lists[arrived.entry + AZIMUTH_READING], payload[0] * 256u + payload[1]);
        }
    }
    p->count = 0;
}

/* A driver's turn, once what is to go is with the node. Where a sender gives up, examples/link.c shows what to do; with
 * these retries none does. */
static void turn(struct station *s, struct port *out, struct port *in)
{
    write_port(s, out);
    read_port(s, in);
    must(shelugvar_node_tick(&s->node) == 0, "no sender gives up");
}

int main(void)
{
    static const char *const motors[] = {"azimuth", "elevation"};
    unsigned ticks = 0;

    start(&ground, ground_table);
    start(&pedestal, pedestal_table);
    for (unsigned k = 0; k < MOVES; k++) {
        add(&ground.lists[AZIMUTH_PLAN], 1800 + 10 * k);
        add(&ground.lists[ELEVATION_PLAN], 300 + 5 * k);
    }
    while (ground.lists[AZIMUTH_READING].count + ground.lists[ELEVATION_READING].count < 2 * MOVES && ticks++ < 200) {
        plan_on(&ground, AZIMUTH_PLAN);
        plan_on(&ground, ELEVATION_PLAN);
        turn(&ground, &up, &down);
        send_on(&pedestal, AZIMUTH_READING);
        send_on(&pedestal, ELEVATION_READING);
        turn(&pedestal, &down, &up);
    }
    printf("%u ticks; frames lost: %zu up, %zu down\n", ticks, up.lost, down.lost);
    for (size_t i = AZIMUTH_PLAN; i <= ELEVATION_PLAN; i++) {
        const struct list *moves = &ground.lists[i], *readings = &ground.lists[i + AZIMUTH_READING];
        struct shelugvar_sender_counts counts = {0, 0};

        must(shelugvar_node_counts(&ground.node, i, &counts) == SHELUGVAR_DONE && counts.confirmed == MOVES &&
                 memcmp(readings->positions, moves->positions, sizeof moves->positions) == 0,
             "every move is confirmed and has its reading, in order");
        printf("%s: %u moves confirmed, accepted in %u plans; %u readings\n", motors[i], (unsigned)counts.confirmed,
               moves->plans, readings->count);
    }
    return wrong;
}
