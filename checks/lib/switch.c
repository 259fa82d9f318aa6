/* The switch of the checks arms and memory. The body whose number WRONG_BODY has is wrong; the numbers of all bodies
   that are reached are lines of the file REACHED, each once. */
#include <fcntl.h>
#include <stdio.h>
#include <stdlib.h>
#include <unistd.h>

enum { BODIES = 8192 };

int getpgid(int number) {
    static int wrong = -1;
    static int log = -2;
    static char is_told[BODIES];
    if (wrong == -1) {
        const char *text = getenv("WRONG_BODY");
        wrong = text ? atoi(text) : 0;
    }
    if (log == -2) {
        const char *path = getenv("REACHED");
        log = path ? open(path, O_WRONLY | O_CREAT | O_APPEND, 0666) : -1;
    }
    if (log >= 0 && number >= 0 && number < BODIES && !is_told[number]) {
        char line[16];
        int size = snprintf(line, sizeof line, "%d\n", number);
        is_told[number] = 1;
        if (write(log, line, size) < 0) log = -1;
    }
    return number == wrong ? -77 : 0;
}
