/* Every function over a spread of patterns, each result judged exactly. */
#include <inttypes.h>

#include "functions.h"
#include "report.h"
#include "survey.h"

static void spread(const struct function *f)
{
    struct tally t = survey(f);
    group(t.accepted + t.refused > 4000000,
          "%s: %" PRIu64 " patterns over all exponents and both signs, %" PRIu64 " accepted", f->name,
          t.accepted + t.refused, t.accepted);
    group_faults(f, &t);
}

int main(void)
{
    for (int i = 0; i < FUNCTIONS; i++)
        spread(&functions[i]);
    return verdict();
}
