/* dezgula: from a net to its loops. This finds the subcommand, and ends in order. */
#include <stdlib.h>
#include <string.h>
#include <unistd.h>

#include "command.h"
#include "dezgula.h"
#include "io.h"
#include "limits.h"

static const command *const COMMANDS[] = {&command_loops, &command_desks, &command_why,  &command_plan,    &command_report,
                                          &command_picture, &command_save,  &command_show, &command_several, &command_single};
enum { COMMANDS_LEN = sizeof COMMANDS / sizeof *COMMANDS };

static void print_help(FILE *out)
{
    fputs("dezgula: the loops of a process map, complete and proved\n\n"
          "Two to begin with:\n"
          "  dezgula loops net.pnml                      a net in, its loops in words out\n"
          "  dezgula report net.pnml > page.html         the same as a page, with the net drawn and the staffing table\n\n"
          "All commands:\n",
          out);
    for (size_t i = 0; i < COMMANDS_LEN; i++) fprintf(out, "  dezgula %-34s %s\n", COMMANDS[i]->usage, COMMANDS[i]->does);
    fprintf(out,
            "\nFILE is a Petri net (PNML), a map (a line \"trays activities\", then a line of numbers for each tray), or typed equations (x1 + x2 = 2*x3);\n"
            "- is standard input. At most %d trays that change and %d activities.\n"
            "Status: 0 complete, 1 refused, 2 nothing read, built or written, 3 cut short.\n"
            "dezgula COMMAND --help says more of each; dezgula --version tells the version.\n",
            MOST_TRAYS, MOST_ACTIVITIES);
}

static void print_help_of(FILE *out, const command *own)
{
    fprintf(out, "dezgula %s\n  %s\n\n%s\n", own->usage, own->does, own->help);
    options_print(out, own->takes);
}

static const command *command_of(const char *name)
{
    for (size_t i = 0; i < COMMANDS_LEN; i++)
        if (strcmp(COMMANDS[i]->name, name) == 0) return COMMANDS[i];
    return NULL;
}

static bool asks_help(char **words, size_t len)
{
    for (size_t i = 0; i < len && strcmp(words[i], "--") != 0; i++)
        if (strcmp(words[i], "--help") == 0 || strcmp(words[i], "-h") == 0) return true;
    return false;
}

static int run_command(const command *own, char **words, size_t len)
{
    options o;
    if (asks_help(words, len)) {
        print_help_of(stdout, own);
        return STATUS_COMPLETE;
    }
    int status = options_read(own, words, len, &o) ? own->run(&o) : STATUS_NOTHING;
    options_free(&o);
    return status;
}

static int run_words(char **words, size_t len)
{
    const char *first = len > 0 ? words[0] : "";
    bool help = strcmp(first, "help") == 0 || strcmp(first, "--help") == 0 || strcmp(first, "-h") == 0;
    if (strcmp(first, "--version") == 0) {
        puts("dezgula " DEZGULA_VERSION);
        return STATUS_COMPLETE;
    }
    if (help && len > 1 && command_of(words[1]) != NULL) {
        print_help_of(stdout, command_of(words[1]));
        return STATUS_COMPLETE;
    }
    if (help || len == 0) {
        print_help(help ? stdout : stderr);
        return help ? STATUS_COMPLETE : STATUS_NOTHING;
    }
    const command *own = command_of(first);
    if (own != NULL) return run_command(own, words + 1, len - 1);
    io_say("there is no \"%s\"; dezgula --help tells the commands", first);
    return STATUS_NOTHING;
}

int main(int count, char **words)
{
    if (!io_begin()) return STATUS_NOTHING;
    return io_end(run_words(words + 1, count > 0 ? (size_t)count - 1 : 0));
}
