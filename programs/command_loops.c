#include "command.h"

static int loops(const options *o)
{
    return show_lists(o, o->how);
}

const command command_loops = {
    "loops", "loops [OPTION ..] FILE", "every loop of a map, with names",
    "A loop is a number of times for each activity after which every tray holds what it held before; those listed are the smallest ones, and every other\n"
    "is made of them. Then it says whether the list is complete, which activities are in no loop, and how large the loops are.\n",
    TAKES_FORMAT | TAKES_WALK | TAKES_STEPS | TAKES_AT_LEAST | TAKES_DELIVER | TAKES_DESKS | TAKES_CHECKPOINT | TAKES_STRICT, 0, 1, loops};
