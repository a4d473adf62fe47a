/* For the small programs that tell their own tally: EXPECT says what does not hold, and tallied() how many did. */
#ifndef TESTS_EXPECT_H
#define TESTS_EXPECT_H

#include <stdio.h>

static int passed, failed;

static void expect(int holds, const char *what, const char *part)
{
    passed += holds != 0;
    failed += holds == 0;
    if (!holds)
        printf("%s: not so: %s\n", part, what);
}

#define EXPECT(condition) expect((condition), #condition, PART)

static int tallied(const char *part)
{
    printf("%s: %d passed, %d failed\n", part, passed, failed);
    return failed != 0;
}

#endif
