/* Sheets for the C tests: see printed.h. */
#include "printed.h"

#include <string.h>

static struct lent out;

static struct placement_reply sheet(sheet_call call, struct book input, size_t room)
{
    return call(fenced(0, input.bytes, input.length), input.length, lend(&out, room), room);
}

void prints_sheet(sheet_call call, struct book input, const char *due)
{
    size_t length = strlen(due);
    const size_t rooms[3] = {length, length + 1, 1024};
    for (size_t k = 0; k < 3; k++) {
        EXPECT(sheet(call, input, rooms[k]), value(length));
        WROTE(&out, due, length);
    }
    EXPECT(sheet(call, input, length - 1), refused(14, 0));
    EXPECT(call(input.bytes, input.length, NULL, 0), refused(14, 0));
    WROTE_NOTHING(&out);
}
