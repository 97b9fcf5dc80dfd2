/*
 * A day of a pager: reads a file of packets from standard input, as day_file.h describes it, and hands each line to the
 * pager. A bad line is told by its number, and ends the program with status 1.
 */
#include "day_file.h"
#include "pager.h"

#include <stdlib.h>

static void take(struct pager *pager, const struct day_line *line)
{
    switch (line->kind) {
    case DAY_RESET:
        pager_reset(pager, line->packet);
        break;
    case DAY_TO:
        if (pager_may_send(line->packet))
            pager_sent(pager, line->packet);
        break;
    case DAY_FROM:
        pager_heard(pager, line->packet);
        break;
    case DAY_SET:
        pager_choose_set(pager, line->set);
        break;
    }
}

int main(void)
{
    static struct pager pager;
    struct day_line line;

    while (day_read(&line))
        take(&pager, &line);
    pager_end(&pager);
    return EXIT_SUCCESS;
}
