#include <errno.h>
#include <stdlib.h>

#include "command.h"
#include "io.h"
#include "read.h"

/* The number of a loop, from 1; 0: the word is none. */
static size_t loop_number(const char *word)
{
    char *end;
    errno = 0;
    unsigned long n = strtoul(word, &end, 10);
    return word[0] >= '0' && word[0] <= '9' && *end == 0 && errno == 0 ? (size_t)n : 0;
}

static int picture_of_loop(const options *o, const map *m)
{
    solved s;
    fault why;
    size_t n = loop_number(o->words[1]);
    int status = solve_map(m, o, file_of(o), &s);
    if (has_lists(status) && (n < 1 || n > s.loops_len)) {
        if (s.loops_len == 0) fault_set(&why, 0, "there is no loop %.40s: the list has none", o->words[1]);
        else fault_set(&why, 0, "there is no loop %.40s; the loops are 1 to %zu", o->words[1], s.loops_len);
        status = io_refuse(file_of(o), &why);
    } else if (has_lists(status)) {
        (void)picture_write(stdout, m, s.loops + (n - 1) * s.q);
        status = finish(o, status);
    }
    solved_free(&s);
    return status;
}

static int picture(const options *o)
{
    map m;
    if (is_terminal("send the picture to a file: dezgula picture FILE > net.svg")) return STATUS_NOTHING;
    int status = read_map(file_of(o), o->strict, &m);
    if (status != STATUS_COMPLETE) return status;
    if (o->words_len > 1) status = picture_of_loop(o, &m);
    else (void)picture_write(stdout, &m, NULL);
    map_free(&m);
    return status;
}

const command command_picture = {
    "picture", "picture FILE [LOOP] > net.svg", "the net as a picture, with the counts of a loop",
    "LOOP is the number of a loop, as dezgula loops counts them. The net is drawn where its file says, and else by Graphviz' dot, where that is installed.\n",
    TAKES_CHECKPOINT | TAKES_STRICT, 1, 2, picture
};
