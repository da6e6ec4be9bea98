/* A file of the classic Mac OS, written by hand from the tables of docs/FORMATS.md, for the programs beside it. */
#ifndef MAC_FILE_H
#define MAC_FILE_H

#include "../../include/pef.h"

#include <string.h>

enum { FILE_LENGTH = 802 };

/* Bytes, and where they are in the file. All others are 0. */
struct written {
    size_t at, length;
    const char *bytes;
};

#define WRITTEN(at, bytes) {at, sizeof bytes - 1, bytes}

/*
 * MacBinary I: the data fork, 264 bytes, is at 128, the resource fork, 290 bytes, at 512. In the fork, the data are at 16: a table of
 * fragments of 176 bytes, and the resource `ndrv` 128, which is named `dr`. The map is at 203, and ends with the names.
 */
static const struct written parts[] = {
    WRITTEN(1, "\x04" "File"), WRITTEN(65, "APPLCalc\x21"), WRITTEN(75, "\xFF\xFE\x00\x14\x00\x07"),
    WRITTEN(83, "\x00\x00\x01\x08\x00\x00\x01\x22"), WRITTEN(136, "Joy!peffpwpc"),
    WRITTEN(512, "\x00\x00\x00\x10\x00\x00\x00\xCB\x00\x00\x00\xBB\x00\x00\x00\x57"), WRITTEN(528, "\x00\x00\x00\xB0"),
    WRITTEN(542, "\x00\x01"), WRITTEN(562, "\x00\x03"),
    WRITTEN(564, "m68k"), WRITTEN(587, "\x01"), WRITTEN(604, "\x00\x30\x04" "Calc"),
    WRITTEN(612, "pwpc\x00\x00\x00\x07\x01\x20\x60\x03\x01\x00\x80\x00\x00\x01\x00\x00\x00\x05\x01\x01\x00\x00\x00\x08\x00\x00\x00\xFA"),
    WRITTEN(644, "\x00\x00\x00\x09\x00\x0B\x00\x0C\x00\x30\x04" "Calc"),
    WRITTEN(660, "pwpc"), WRITTEN(682, "\x02\x02ndrv\x00\x00\x00\x80"), WRITTEN(700, "\x00\x30\x03" "Drv"),
    WRITTEN(708, "\x00\x00\x00\x03" "drv"),
    WRITTEN(737, "\x00\x80\x00\x1C\x00\x46"), WRITTEN(743, "\x00\x01" "cfrg\x00\x00\x00\x12" "ndrv\x00\x00\x00\x1E"),
    WRITTEN(761, "\x00\x00\xFF\xFF"), WRITTEN(773, "\x00\x80\x00\x00\x20\x00\x00\xB4"), WRITTEN(785, "\x02" "dr"),
};

/* Writes the file to as many bytes that are 0. */
static inline void write_mac_file(uint8_t *file)
{
    for (size_t i = 0; i < sizeof parts / sizeof parts[0]; i++)
        memcpy(file + parts[i].at, parts[i].bytes, parts[i].length);
}

#endif
