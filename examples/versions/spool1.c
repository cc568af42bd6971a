/* A spooler of three places, version 1: it counts its jobs. A line is a command, and is answered by a line. */
#include <stdio.h>
#include <string.h>

#define PLACES 3

static int count;

static const char *put(void) {
    if (count == PLACES)
        return "full";
    count++;
    return "queued";
}

static const char *get(void) {
    if (count == 0)
        return "empty";
    count--;
    return "printed";
}

static const char *cancel(void) {
    if (count == 0)
        return "empty";
    count--;
    return "cancelled";
}

int main(void) {
    char line[80];
    while (fgets(line, sizeof line, stdin)) {
        line[strcspn(line, "\r\n")] = 0;
        puts(!strcmp(line, "PUT") ? put() : !strcmp(line, "GET") ? get() : !strcmp(line, "CANCEL") ? cancel() : "error");
        fflush(stdout);
    }
    return 0;
}
