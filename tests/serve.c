/* Lets a program stand ready, so that a run of it costs no loading: the tests load this before the C library (glibc).

   Before it begins, the program takes requests from the socket SERVE. Each is a run: a child that goes on as the program
   would, with the words of the request after its own. Standard input, output and error are files, and the client fills,
   empties and reads them. The lines of trouble.c on the run go to the same socket. When the child has ended, a
   line '= STATUS' does. It is negative if a signal ended the child.

   A request is one packet of texts, each followed by a zero byte: the folder to run in, the settings 'NAME=VALUE'
   that the run has in its environment, an empty text, and the words. */
#define _GNU_SOURCE
#include <dlfcn.h>
#include <stdio.h>
#include <stdlib.h>
#include <string.h>
#include <sys/socket.h>
#include <sys/wait.h>
#include <unistd.h>

#define ROOM (1 << 18)
#define WORDS 256
/* how many seconds a run may take: many, since others may use the processors too, and inputs have up to 1 GB */
#define SECONDS 600
/* the status where a request couldn't be carried out */
#define UNSERVED 99

/* of trouble.c, where that is loaded with this: it looks at the environment */
__attribute__((weak)) void begin(void);

static char *words[WORDS];

/* Makes this process the one that a request asks for: how many words it has, which stand in `words`. */
static int become(char *request, const char *end, int count)
{
    char *text = request + strlen(request) + 1;
    alarm(SECONDS);
    if (chdir(request) != 0)
        _exit(UNSERVED);
    for (; text < end && *text; text += strlen(text) + 1)
        putenv(text);
    for (text++; text < end && count < WORDS - 1; text += strlen(text) + 1)
        words[count++] = text;
    if (text < end)
        _exit(UNSERVED);
    if (begin)
        begin();
    return count;
}

/* Returns only in the child of a request, with how many words it has. */
static int served(int asker, int count)
{
    static char request[ROOM];
    for (;;) {
        char line[32];
        int status;
        ssize_t length = recv(asker, request, sizeof request - 1, 0);
        if (length <= 0)
            _exit(length == 0 ? 0 : UNSERVED);
        request[length] = 0;
        pid_t child = fork();
        if (child == 0)
            return become(request, request + length, count);
        if (child < 0 || waitpid(child, &status, 0) != child)
            _exit(UNSERVED);
        length = snprintf(line, sizeof line, "= %d\n", WIFSIGNALED(status) ? -WTERMSIG(status) : WEXITSTATUS(status));
        if (send(asker, line, (size_t)length, 0) != length)
            _exit(UNSERVED);
    }
}

typedef int Start(int (*)(int, char **, char **), int, char **, void (*)(void), void (*)(void), void (*)(void), void *);

/* What each program calls first, before anything of its own has run. */
int __libc_start_main(int (*program)(int, char **, char **), int count, char **own, void (*first)(void), void (*last)(void),
                      void (*ended)(void), void *stack)
{
    Start *start = (Start *)dlsym(RTLD_NEXT, "__libc_start_main");
    const char *asker = getenv("SERVE");
    if (!asker || count >= WORDS)
        return start(program, count, own, first, last, ended, stack);
    /* what the program starts itself isn't served */
    unsetenv("SERVE");
    memcpy(words, own, (size_t)count * sizeof *own);
    count = served(atoi(asker), count);
    return start(program, count, words, first, last, ended, stack);
}
