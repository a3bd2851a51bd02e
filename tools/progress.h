/* progress.h: what the tool is at, told on standard error each second once work has taken a second, and never before.
 * Part of cartridge.c. A signal tells it, so that a call of the library that takes long is told of too. */
#ifndef TOOLS_PROGRESS_H
#define TOOLS_PROGRESS_H

#include <errno.h>
#include <signal.h>
#include <stdint.h>
#include <sys/time.h>
#include <unistd.h>

static struct {
    const char *volatile what; /* NULL while there is nothing to tell */
    const char *volatile name;
    volatile uint64_t done, total; /* total 0: how much there is to do is not known */
    volatile unsigned seconds;
    volatile int is_shown;
    int on_terminal;
} work;

/* A line is made by hand, since a signal may come in the middle of any printf. */
enum { LONGEST_LINE = 200, LONGEST_WITH_NAME = 160 };
struct line {
    char text[LONGEST_LINE];
    size_t length;
};

static inline void add_cut(struct line *line, const char *text, size_t most)
{
    while (*text != '\0' && line->length < most)
        line->text[line->length++] = *text++;
}

static inline void add_text(struct line *line, const char *text)
{
    add_cut(line, text, sizeof line->text);
}

static inline void add_number(struct line *line, uint64_t number)
{
    char digits[24];
    size_t at = sizeof digits;
    digits[--at] = '\0';
    do {
        digits[--at] = (char)('0' + number % 10);
        number /= 10;
    } while (number > 0);
    add_text(line, digits + at);
}

static inline void add_share(struct line *line)
{
    if (work.total == 0)
        return;
    add_text(line, ", ");
    add_number(line, work.done * 100 / work.total);
    add_text(line, " %");
}

static inline void write_line(const struct line *line)
{
    ssize_t written = write(STDERR_FILENO, line->text, line->length);
    (void)written; /* there is nobody else to tell */
}

/* On a terminal a line takes the place of the one before. */
static inline void tell_progress(int signal)
{
    int error = errno;
    struct line line = {"", 0};
    (void)signal;
    work.seconds = work.seconds + 1;
    if (work.what == NULL)
        return;
    add_text(&line, work.on_terminal ? "\r\033[Kcartridge: " : "cartridge: ");
    add_text(&line, work.what);
    add_text(&line, " ");
    add_cut(&line, work.name, LONGEST_WITH_NAME);
    add_share(&line);
    add_text(&line, ", ");
    add_number(&line, work.seconds);
    add_text(&line, work.on_terminal ? " s" : " s\n");
    write_line(&line);
    work.is_shown = 1;
    errno = error;
}

/* The first second begins here. */
static inline void start_telling(void)
{
    struct sigaction action = {.sa_handler = tell_progress, .sa_flags = SA_RESTART};
    struct itimerval each_second = {{1, 0}, {1, 0}};
    work.on_terminal = isatty(STDERR_FILENO);
    sigemptyset(&action.sa_mask);
    sigaction(SIGALRM, &action, NULL);
    setitimer(ITIMER_REAL, &each_second, NULL);
}

static inline void begin_work(const char *what, const char *name, uint64_t total)
{
    work.what = NULL;
    work.name = name;
    work.done = 0;
    work.total = total;
    work.what = what;
}

static inline void work_done(uint64_t done)
{
    work.done = done;
}

/* Nothing is told from here on, and the terminal's line is free for others. */
static inline void end_work(void)
{
    struct line line = {"", 0};
    work.what = NULL;
    if (!work.is_shown || !work.on_terminal)
        return;
    add_text(&line, "\r\033[K");
    write_line(&line);
    work.is_shown = 0;
}

#endif
