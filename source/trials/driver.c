/* PROGRAM CASES ANSWERS: runs the cases by the translation, as engine.cjs does by an engine. */
#include <stdio.h>
#define SIZE 256

static PEF__ALIGNED(16) u8 area[SIZE];

int main(int count, char **words) {
    FILE *cases = count == 3 ? fopen(words[1], "rb") : NULL, *answers = cases ? fopen(words[2], "wb") : NULL;
    u32 number;
    if (!answers) return 2;
    while (fread(&number, 4, 1, cases) == 1 && fread(area, SIZE, 1, cases) == 1) {
        if (setjmp(trapped)) {
            memset(area, 0, SIZE);
            fputc(1, answers);
        } else {
            calls[number](A(area));
            fputc(0, answers);
        }
        fwrite(area, SIZE, 1, answers);
    }
    return fclose(answers) != 0;
}
