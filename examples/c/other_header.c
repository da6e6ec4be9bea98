/*
 * Reads rows, as a program does that was compiled with another header than that of the library. `test` compiles it with this header; with
 * one that lacks the last field of two structs, as an older one does; and with one in which another field follows, as in a newer one. Each
 * has to read the same, since a struct keeps its size, and a field its place. What isn't so is printed, a line each, and the status is
 * then 1.
 */
#include "expect.h"

/* An error and a note, in a container that is damaged by hand. */
static void test_findings(void)
{
    struct pef_bytes container = linked("section d data process 4 4\nbytes d 0000002A\n");
    struct pef_finding rows[3];
    uint8_t damaged[LONGEST_CONTAINER];
    size_t count = 0;
    memset(rows, 7, sizeof rows);
    memcpy(damaged, container.at, container.length);
    damaged[15] = 2;
    damaged[39] = 7;
    EXPECT(pef_findings(damaged, container.length, 0, rows, 3, &count) == PEF_OK && count == 2);
    EXPECT(rows[0].number == PEF_BAD_FORMAT_VERSION && rows[0].is_error && rows[0].place.offset == 12);
    EXPECT(rows[1].number == PEF_NOTE_RESERVED_NOT_ZERO && !rows[1].is_error && rows[1].place.offset == 36 && rows[1].detail == 0);
    EXPECT(rows[2].number == 0x07070707);
}

static void test_imports(void)
{
    struct pef_bytes container = linked("library System 1 0 -\nimport beep tvector strong\nimport rows data weak\n"
                                        "section d data process 4 8\nfix d 0 import beep\nfix d 4 import rows\n");
    struct pef_import rows[3];
    size_t count = 0;
    memset(rows, 7, sizeof rows);
    EXPECT(pef_imports(container.at, container.length, 0, rows, 3, &count) == PEF_OK && count == 2);
    EXPECT(is_named(rows[0].name, "beep") && rows[0].library == 0 && rows[0].symbol_class == PEF_CLASS_TVECTOR);
    EXPECT(is_named(rows[1].name, "rows") && rows[1].library == 0 && rows[1].symbol_class == PEF_CLASS_DATA);
    EXPECT(rows[2].symbol_class == 7);
}

int main(void)
{
    test_findings();
    test_imports();
    return failures == 0 ? 0 : 1;
}
