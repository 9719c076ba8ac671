// A program that takes memory in a thread and then writes the text of a file, EXPECTED. Where memory is refused it says so, but for what
// FAULT lets it do: 1 ends with nothing written, 2 asks until it gets memory, and 3 doesn't see that all of the thread was refused.
#include <fcntl.h>
#include <pthread.h>
#include <stdlib.h>
#include <unistd.h>

enum { TAKEN = 2, BYTES = 5000, LONGEST = 65536 };

static int refused;

static void *take(void *nothing)
{
    for (int taken = 0; taken < TAKEN; taken++) {
        void *volatile room;
        while ((room = malloc(BYTES)) == NULL && FAULT == 2)
            usleep(1000);
        refused += room == NULL;
        free(room);
    }
    return nothing;
}

static int is_told(void)
{
    return FAULT == 1 ? 0 : FAULT == 3 ? refused % TAKEN : refused;
}

static int write_expected(void)
{
    static char text[LONGEST];
    ssize_t len = read(open(EXPECTED, O_RDONLY), text, sizeof text);
    return len < 0 || write(STDOUT_FILENO, text, (size_t)len) != len;
}

int main(void)
{
    pthread_t thread;
    int is_made = pthread_create(&thread, NULL, take, NULL) == 0;
    if (is_made)
        pthread_join(thread, NULL);
    void *volatile room = malloc(BYTES);
    if (!is_made || room == NULL || is_told())
        return write(STDERR_FILENO, "no memory\n", 10) == 10 ? 4 : 1;
    return refused && FAULT == 1 ? 0 : write_expected();
}
