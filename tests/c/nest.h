/* A text whose lists lie in one another. */
#ifndef NEST_H
#define NEST_H

#include <stdio.h>

/* Is there a block at this level? By turns lists and blocks, where there are any. */
static int is_block(int level, int with_blocks)
{
    return with_blocks && level % 2 == 1;
}

/*
 * Writes depth lists of one item, or lists and blocks, each in the one before, and these lines into the
 * innermost; gives the length.
 */
static size_t nest_lists(char *text, int depth, int with_blocks, const char *lines)
{
    char *end = text;
    int level;
    for (level = 0; level < depth; level++)
        if (is_block(level, with_blocks))
            end += sprintf(end, "%*s#+begin_b%d\n", level, "", level);
        else
            end += sprintf(end, "%*s- a\n", level, "");
    end += sprintf(end, "%s", lines);
    for (level = depth - 1; level >= 0; level--)
        if (is_block(level, with_blocks))
            end += sprintf(end, "#+end_b%d\n", level);
    return (size_t)(end - text);
}

#endif
