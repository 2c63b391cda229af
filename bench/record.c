/*
 * Writes the made-up day, or some volumes of it, to standard output as one recording.
 *
 *     record [FIRST [COUNT]]      COUNT volumes (288, or as many as are left) from volume FIRST (0) on
 */
#include <stdio.h>
#include <stdlib.h>

#include "day.h"

int main(int count, char **arguments)
{
    static struct volume volume;
    unsigned long first = count > 1 ? strtoul(arguments[1], NULL, 10) : 0;
    unsigned long most = count > 2 ? strtoul(arguments[2], NULL, 10) : VOLUMES;
    for (unsigned long i = first; i < VOLUMES && i - first < most; i++) {
        make_volume(&volume, (unsigned)i);
        if (fwrite(volume.bytes, 1, volume.size, stdout) != volume.size) {
            perror("record");
            return 1;
        }
    }
    return fflush(stdout) == 0 ? 0 : 1;
}
