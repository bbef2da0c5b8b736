/* Reads a channel table on standard input and prints its label. */
#include <stdio.h>

#include "numbers.h"
#include "stream.h"
#include "table.h"

static void print_label(const struct table *table)
{
    printf("n=%d own=%d pid=%d\n", table->count, table->own,
           table->protocol);
    for (int i = 0; i < table->count; i++) {
        const struct entry *entry = &table->entry[i];

        printf("%d %s %d %d %d %d\n", i,
               entry->kind == KIND_SENDS ? "tx" : "rx", entry->remote,
               entry->channel, entry->window, SEQUENCES - entry->window);
    }
}

int main(void)
{
    uint8_t bytes[TABLE_MOST + 1]; /* one more shows a table too long */
    struct table table;
    size_t length = input_read(bytes, sizeof bytes);

    if (table_read(bytes, length, &table) != NOT_REFUSED) {
        printf("refused %d\n", REFUSED_TABLE);
    } else {
        print_label(&table);
    }
    return 0;
}
