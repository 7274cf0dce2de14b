/* Reads a sheet from standard input and prints what a premium may be set from, and what was found.
 *
 *   cc -Iinclude examples/desk.c target/staticlib/libexport.a -o desk && ./desk < samples/octahedron.sheet */
#include <stdio.h>

#include "nibgravel.h"

int main(void) {
    uint8_t sheet[NIBGRAVEL_SHEET_BYTES + 1];
    size_t length = fread(sheet, 1, sizeof sheet, stdin);

    double volume;
    uint64_t number = nibgravel_assess_sheet(sheet, length, NIBGRAVEL_MOST_WORK, &volume, 1);
    if (number == NIBGRAVEL_FINE)
        printf("volume %.6f cubic metres\n", volume);
    else
        printf("not assessed %llu\n", (unsigned long long)number);

    uint8_t faces[NIBGRAVEL_FACE_ROOM];
    uint64_t solids[NIBGRAVEL_SOLID_ROOM], said[NIBGRAVEL_SAID];
    number = nibgravel_convert_sheet(sheet, length, NIBGRAVEL_MOST_WORK, faces, sizeof faces, solids, NIBGRAVEL_SOLID_ROOM, said,
                                     NIBGRAVEL_SAID);
    if (number != NIBGRAVEL_FINE) {
        printf("refused %llu %llu\n", (unsigned long long)number, (unsigned long long)said[1]);
        return 0;
    }
    printf("loops %llu candidates %llu work %llu\n", (unsigned long long)said[2], (unsigned long long)said[3], (unsigned long long)said[4]);
    for (uint64_t k = 0; k < said[5]; k++)
        printf("solid %llu sixvolumes %llu\n", (unsigned long long)k + 1, (unsigned long long)solids[3 * k + 2]);
    return 0;
}
