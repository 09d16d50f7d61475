/* Calls are counted from 1, and those numbered from REFUSED_FROM to REFUSED_TO, variables of the environment, are refused. */
#include <stdlib.h>

static unsigned long calls;

static unsigned long number(const char *name) {
    const char *digits = getenv(name);
    return digits ? strtoul(digits, NULL, 10) : 0;
}

static int is_refused(void) {
    calls++;
    return calls >= number("REFUSED_FROM") && calls <= number("REFUSED_TO");
}
