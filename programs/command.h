/* What a subcommand is, what it is handed, and what several of them do alike. */
#ifndef COMMAND_H
#define COMMAND_H

#include "formats.h"

/* The options, as a set; each subcommand says which it takes. */
enum {
    TAKES_FORMAT = 1,
    TAKES_WALK = 2,
    TAKES_STRICT = 4,
    TAKES_DESKS = 8,
    TAKES_AT_LEAST = 16,
    TAKES_DELIVER = 32,
    TAKES_CHECKPOINT = 64,
    TAKES_STEPS = 128
};

typedef struct {
    format how;
    bool walk, strict, desks;
    char **at_least, **deliver, **words; /* words: what is no option */
    size_t at_least_len, deliver_len, words_len;
    const char *checkpoint; /* or NULL */
    uint64_t steps;         /* 0: as many as it takes */
} options;

typedef struct {
    const char *name, *usage, *does, *help; /* help: what follows the usage and what it does; the options are said by their own lines */
    unsigned takes;
    size_t least_words, most_words;
    int (*run)(const options *o); /* gives the status; what is still in the buffer of standard output is looked at after it */
} command;

extern const command command_loops, command_desks, command_why, command_plan, command_report, command_picture, command_save, command_show, command_several,
    command_single;

/* Reads the words after a subcommand. False: they are not in order, which was said. */
bool options_read(const command *own, char **words, size_t words_len, options *out);

void options_free(options *o);

/* The lines of a set of options, for --help. */
void options_print(FILE *out, unsigned takes);

/* ---- what several subcommands do */

/* The file that the words begin with; "-" where there is none. */
const char *file_of(const options *o);

/* Its name without its folder; NULL where it is standard input. */
const char *name_of(const options *o);

/* Puts the right sides of --deliver into the map. */
int set_deliveries(map *m, const options *o);

/* Solves a map as the options ask. The status and the lists are those of work(); the lists are in the order in which they are shown. */
int solve_map(const map *m, const options *o, const char *name, solved *out);

/* Whether a status comes with lists: those of a run that is complete, or cut short. */
bool has_lists(int status);

/* Whether standard output is a terminal, which is said together with what to do: `advice`. What is for a program or a browser is not shown there. */
bool is_terminal(const char *advice);

/* Reads the map of the first word, solves it and shows its lists. */
int show_lists(const options *o, format how);

/* Takes away what --checkpoint kept, where the run is complete and all that was printed has left. */
int finish(const options *o, int status);

/* The desks of a map: how many trays each page has, in the order in which the pages come first; the map's trays are put in that order. NULL: there are not two
 * pages with trays, or no memory, and `why` says so. To be given back. */
size_t *desks_by_page(map *m, size_t *desks_len, fault *why);

#endif
