/* Asks what smblease.h has on states and opens. The answers are those of the rules. Status 1 where one is another. */
#include <smblease.h>
#include <stdio.h>

static int wrong_ones;

static void check(const char *what, int is_right) {
    if (!is_right) {
        wrong_ones++;
        printf("wrong: %s\n", what);
    }
}

int main(void) {
    check("conflicts", smblease_opens_conflict(1, 3, 3, 2) && !smblease_opens_conflict(2, 3, 3, 2)
                           && !smblease_opens_conflict(1, 0, 0, 0) && !smblease_opens_conflict(0, 0, 3, 0));
    check("bits that name nothing", !smblease_opens_conflict(4, 0, 3, 0) && smblease_opens_conflict(5, 3, 3, 6));
    check("granted forms", smblease_granted_form(6) == 0 && smblease_granted_form(UINT32_C(0xfffffff5)) == 5);
    check("acknowledgments", smblease_needs_acknowledgment(2) && smblease_needs_acknowledgment(4)
                                 && !smblease_needs_acknowledgment(1));
    check("states within others", smblease_is_within(1, 5) && !smblease_is_within(5, 1));
    return wrong_ones != 0;
}
