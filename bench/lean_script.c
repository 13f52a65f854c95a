/* The lean plain kernel as a program: a script on standard input, its log on standard output. */
#include "lean.h"

#include <string.h>
#include <unistd.h>

/* How many bytes are read and written at once. */
#define PIECE 16384

#define LONGEST_LINE 160

/* No log line is longer. */
#define LOG_LINE 24

/* How many words a script's queues have. */
#define BLOCK 4096

struct session {
    struct lean kernel;
    uint32_t block[BLOCK];
    int begun;  /* the first line was a script's */
    int failed; /* the log could not be written */
    size_t written;
    char log[PIECE];
    char text[LONGEST_LINE + 1 + PIECE];
};

/* ---- The log ---- */

static void write_log(struct session *s)
{
    size_t at = 0;
    while (at < s->written && !s->failed) {
        ssize_t n = write(STDOUT_FILENO, s->log + at, s->written - at);
        if (n <= 0)
            s->failed = 1;
        else
            at += (size_t)n;
    }
    s->written = 0;
}

static char *put_number(char *at, uint32_t n)
{
    if (n >= 10)
        at = put_number(at, n / 10);
    *at++ = (char)('0' + n % 10);
    return at;
}

static void log_answer(struct session *s, uint64_t answer)
{
    uint8_t run = (uint8_t)(answer >> 8);
    if (s->written > PIECE - LOG_LINE)
        write_log(s);
    char *at = put_number(s->log + s->written, (uint8_t)answer);
    *at++ = '\t';
    at = put_number(at, (uint32_t)(answer >> 32));
    *at++ = '\t';
    if (run == CUNGKALISA_NONE)
        *at++ = '-';
    else
        at = put_number(at, run);
    *at++ = '\n';
    s->written = (size_t)(at - s->log);
}

/* ---- Lines ---- */

#define LONGEST_NAME 7

/* No line has more: a queue, a time and a message. */
#define MOST_NUMBERS (2 + CUNGKALISA_WORDS)

/* The steps in the order of their codes. Tabs fill the names, since no name on a line has one. */
static const struct {
    char name[LONGEST_NAME + 2];
    uint8_t least; /* numbers on the line */
    uint8_t most;
} steps[] = {
    {"task\t\t\t\t", 1, 1},  {"mutex\t\t\t", 1, 1},  {"sem\t\t\t\t\t", 2, 2}, {"start\t\t\t", 0, 0},
    {"lock\t\t\t\t", 2, 2},  {"unlock\t\t", 1, 1},   {"pend\t\t\t\t", 2, 2},  {"post\t\t\t\t", 1, 1},
    {"flush\t\t\t", 1, 1},   {"sleep\t\t\t", 1, 1},  {"yield\t\t\t", 0, 0},   {"hold\t\t\t\t", 0, 0},
    {"free\t\t\t\t", 0, 0},  {"tick\t\t\t\t", 0, 0}, {"level\t\t\t", 1, 1},   {"outcome\t", 1, 1},
    {"queue\t\t\t", 2, 2},   {"queue\t\t\t", 3, 3},  {"send\t\t\t\t", 3, 10}, {"receive\t", 2, 2},
    {"word\t\t\t\t", 2, 2},
};

enum { NO_STEP = sizeof steps / sizeof steps[0] };

/* The code of a name with so many numbers. */
static uint32_t code_of(const char *name, size_t length, uint32_t numbers)
{
    char filled[LONGEST_NAME + 1];
    uint32_t code = 0;
    if (length > LONGEST_NAME)
        return NO_STEP;
    memset(filled, '\t', sizeof filled);
    memcpy(filled, name, length);
    while (code < NO_STEP && (memcmp(steps[code].name, filled, sizeof filled) != 0 || numbers < steps[code].least ||
                              numbers > steps[code].most))
        code++;
    return code;
}

/* A tab and a number at the front of the text: gives what follows them, or NULL where they aren't there. */
static const char *read_number(const char *at, const char *end, uint32_t *number)
{
    uint64_t value = 0;
    if (at == end || *at != '\t')
        return NULL;
    const char *first = ++at;
    while (at < end && *at >= '0' && *at <= '9' && value <= UINT32_MAX)
        value = 10 * value + (uint64_t)(*at++ - '0');
    if (at == first || value > UINT32_MAX || (*first == '0' && at - first > 1))
        return NULL;
    *number = (uint32_t)value;
    return at;
}

/* Tabs and numbers to the end: gives how many there are, more than any step has where something else is among them. */
static uint32_t read_numbers(const char *at, const char *end, uint32_t numbers[MOST_NUMBERS])
{
    uint32_t count = 0;
    while (at != end) {
        if (count == MOST_NUMBERS || !(at = read_number(at, end, &numbers[count])))
            return MOST_NUMBERS + 1;
        count++;
    }
    return count;
}

static uint64_t run_line(struct session *s, const char *line, size_t length)
{
    const char *end = line + length;
    const char *at = line;
    uint32_t numbers[MOST_NUMBERS] = {0}, code = NO_STEP, count = 0;
    if (length <= LONGEST_LINE) {
        while (at < end && *at != '\t')
            at++;
        count = read_numbers(at, end, numbers);
        code = code_of(line, (size_t)(at - line), count);
    }
    /* What stands behind a send's queue and time is its message. */
    uint64_t words = code == CUNGKALISA_STEP_SEND ? count - 2 : 0;
    return lean_step(&s->kernel, code, numbers[0], numbers[1], numbers[2], numbers + 2, words, s->block, BLOCK);
}

/* ---- Scripts ---- */

/* The first line; if it isn't a script's, nothing follows in the log. */
static int begin(struct session *s, const char *line, size_t length)
{
    s->begun = length == 8 && memcmp(line, "kernel\t1", 8) == 0;
    memcpy(s->log, s->begun ? "log\t1\n" : "bad\t1\n", 6);
    s->written = 6;
    return s->begun;
}

static int take_line(struct session *s, const char *line, size_t length)
{
    if (!s->begun)
        return begin(s, line, length);
    log_answer(s, run_line(s, line, length));
    return 1;
}

/* Runs the whole lines of the first n bytes, and moves the begun one to the front: of an over-long line only as much as it
 * takes to know it by. Gives its length, or -1 after a bad first line. */
static ssize_t take_piece(struct session *s, size_t n)
{
    char *at = s->text;
    char *end = s->text + n;
    char *lf;
    while ((lf = memchr(at, '\n', (size_t)(end - at)))) {
        if (!take_line(s, at, (size_t)(lf - at)))
            return -1;
        at = lf + 1;
    }
    size_t rest = (size_t)(end - at);
    if (rest > LONGEST_LINE + 1)
        rest = LONGEST_LINE + 1;
    memmove(s->text, at, rest);
    return (ssize_t)rest;
}

/* The log of what came is written before more is waited for. Gives 0 where all was read and written. */
static int replay(struct session *s)
{
    ssize_t kept = 0, got;
    while ((got = read(STDIN_FILENO, s->text + kept, PIECE)) > 0) {
        kept = take_piece(s, (size_t)(kept + got));
        write_log(s);
        if (kept < 0 || s->failed)
            return s->failed;
    }
    if (got == 0 && (kept > 0 || !s->begun))
        take_line(s, s->text, (size_t)kept);
    write_log(s);
    return s->failed || got < 0;
}

int main(void)
{
    static struct session session;
    lean_fresh(&session.kernel);
    return replay(&session);
}
