/* Reads numbers of script lines from standard input into an array, or prints an array of numbers: what a plain program takes for it.
   Usage: text in | text out TIMES */
#include <inttypes.h>
#include <stdio.h>
#include <stdlib.h>
#include <string.h>

#define PROCESSORS 65536
static uint64_t numbers[PROCESSORS];

static char *read_number(char *at, uint64_t *number)
{
    for (*number = 0; *at >= '0' && *at <= '9'; at++)
        *number = *number * 10 + (uint64_t)(*at - '0');
    return at;
}

/* A line of `input a FROM NUMBER ..`, which ends with a line feed. */
static void read_line(char *line, char *end)
{
    uint64_t place;
    if (strncmp(line, "input a ", 8) != 0)
        return;
    char *at = read_number(line + 8, &place);
    while (at < end)
        at = read_number(at + 1, &numbers[place++ % PROCESSORS]);
}

static void read_all(void)
{
    size_t room = (size_t)1 << 27, length;
    char *text = malloc(room);
    if (!text)
        exit(2);
    length = fread(text, 1, room, stdin);
    for (char *line = text, *end; (end = memchr(line, '\n', (size_t)(text + length - line))); line = end + 1)
        read_line(line, end);
    free(text);
}

static char *put_number(char *at, uint64_t number)
{
    char digits[20];
    int count = 0;
    do
        digits[count++] = (char)('0' + number % 10);
    while (number /= 10);
    while (count)
        *at++ = digits[--count];
    return at;
}

static void print_all(void)
{
    static char text[PROCESSORS * 21 + 16];
    char *at = text + sprintf(text, "values");
    for (int v = 0; v < PROCESSORS; v++) {
        *at++ = ' ';
        at = put_number(at, numbers[v]);
    }
    *at++ = '\n';
    fwrite(text, 1, (size_t)(at - text), stdout);
}

int main(int count, char **words)
{
    read_all();
    for (int times = count > 2 ? atoi(words[2]) : 0; times; times--)
        print_all();
    return numbers[0] == 1;
}
