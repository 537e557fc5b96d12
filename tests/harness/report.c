#include "report.h"

#include <inttypes.h>
#include <stdarg.h>
#include <stdio.h>

static int passed, failed;

void group(bool good, const char *format, ...)
{
    va_list words;
    va_start(words, format);
    printf(good ? "ok    " : "FAIL  ");
    vprintf(format, words);
    putchar('\n');
    va_end(words);
    *(good ? &passed : &failed) += 1;
}

static bool promised(const struct function *f, enum fault fault)
{
    return (fault != UNLIKE_TWIN || f->twin != NULL) && (fault != OUT_OF_ORDER || f->order != ANY_ORDER);
}

void group_faults(const struct function *f, const struct tally *t)
{
    for (int fault = 0; fault < FAULTS; fault++) {
        if (t->seen[fault] != 0)
            group(false, "%s: %s: %llu, one at %08" PRIx32, f->name, fault_names[fault],
                  (unsigned long long)t->seen[fault], t->first[fault]);
        else if (promised(f, fault))
            group(true, "%s: %s: 0", f->name, fault_names[fault]);
    }
}

int verdict(void)
{
    printf("%d passed, %d failed\n", passed, failed);
    return failed == 0 ? 0 : 1;
}
