#include "command.h"

static int report(const options *o)
{
    return show_lists(o, FORMAT_HTML);
}

const command command_report = {
    "report", "report FILE > page.html", "one page: the net drawn, its loops, the staffing table",
    "The page needs no network. A click on a loop shows it in the net, with its counts; the staffing table has the activities by loops. The net is drawn\n"
    "where its file says, and else by Graphviz' dot, where that is installed.\n",
    TAKES_WALK | TAKES_CHECKPOINT | TAKES_STRICT, 0, 1, report
};
