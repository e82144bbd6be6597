/* Says of a drawing what `dwg audit` says: cc example.c $(pkg-config --cflags --libs dwg) -o example && ./example plan.dwg */
#include <stdio.h>
#include <stdlib.h>
#include "dwg.h"

static uint8_t input[33554433];

int main(int argc, char **argv)
{
    FILE *file = argc == 2 ? fopen(argv[1], "rb") : NULL;
    if (!file) {
        fprintf(stderr, "usage: example FILE\n");
        return 2;
    }
    size_t size = fread(input, 1, sizeof input, file);
    fclose(file);
    size_t written = 4096, noted = 256, room, note_room;
    uint8_t *output = NULL, *notes = NULL, status;
    do {
        room = written, note_room = noted;
        output = realloc(output, room + 1);
        notes = realloc(notes, note_room + 1);
        if (!output || !notes)
            return DWG_NO_MEMORY;
        status = dwg_audit(input, size, output, room, &written, notes, note_room, &noted);
    } while (status == DWG_TOO_SMALL);
    if (status != DWG_NO_MEMORY && (fwrite(output, 1, written, stdout) < written || fwrite(notes, 1, noted, stderr) < noted))
        return 5;
    return status;
}
