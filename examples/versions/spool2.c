/* A spooler of three places, version 2: a ring, in which `head` is the next job to print and `tail` the next free place. Where the
   two are the same, `is_full` says which of the two it means. A line is a command, and is answered by a line. */
#include <stdio.h>
#include <string.h>

#define PLACES 3

static int head, tail, is_full;

static const char *put(void) {
    if (is_full)
        return "full";
    tail = (tail + 1) % PLACES;
    is_full = tail == head;
    return "queued";
}

static const char *get(void) {
    if (head == tail && !is_full)
        return "empty";
    head = (head + 1) % PLACES;
    is_full = 0;
    return "printed";
}

static const char *cancel(void) {
    if (head == tail && !is_full)
        return "empty";
    tail = (tail + PLACES - 1) % PLACES;
    return "cancelled";
}

int main(void) {
    char line[80];
    while (fgets(line, sizeof line, stdin)) {
        line[strcspn(line, "\r\n")] = 0;
        puts(!strcmp(line, "PUT") ? put() : !strcmp(line, "GET") ? get() : !strcmp(line, "CANCEL") ? cancel() : "error");
        fflush(stdout);
    }
    return 0;
}
