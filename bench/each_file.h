/* The run of a peer: it reads the named files, by default standard input, and prints the number of their events. */
#include <stdio.h>

/* Adds the events of a file; returns the status of a run that ends with it. */
static int read_events(FILE *file, unsigned long *events);

int main(int count, char **names) {
    unsigned long events = 0;
    int status = count > 1 ? 0 : read_events(stdin, &events);
    for (int i = 1; i < count && status == 0; i++) {
        FILE *file = fopen(names[i], "rb");
        if (!file) {
            return 3;
        }
        status = read_events(file, &events);
        fclose(file);
    }
    printf("%lu\n", events);
    return status;
}
