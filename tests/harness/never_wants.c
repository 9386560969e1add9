/* Stands for a program that answers 0 where memory was wanted: PROGRAM, with this file as a library
 * loaded into it. Compiled with LIBRARY it is that library, and else what starts the program with
 * it. Neither asks for memory itself, since requests are counted and refused in it. */
#define _GNU_SOURCE
#include <stdio.h>
#include <stdlib.h>
#include <string.h>
#include <unistd.h>

#ifdef LIBRARY

static void turn(int status, void *nothing) {
    (void)nothing;
    if (status == 8) _exit(0);
}

__attribute__((constructor)) static void begin(void) { on_exit(turn, NULL); }

#else

#define NAME "LD_PRELOAD="

int main(int count, char **words) {
    static char loaded[65536];
    static char *variables[65536];
    const char *others = getenv("LD_PRELOAD");
    int left = 0;
    (void)count;
    snprintf(loaded, sizeof loaded, NAME "%s %s", others ? others : "", WITH);
    for (char **each = environ; *each && left < 65534; each++)
        if (strncmp(*each, NAME, strlen(NAME))) variables[left++] = *each;
    variables[left] = loaded;
    execve(PROGRAM, words, variables);
    return 127;
}

#endif
