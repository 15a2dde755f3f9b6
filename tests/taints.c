/*
 * A host that takes a register's taint for a number or a truth: none of it may compile, since 1 for "tainted" would be a
 * taint of byte 0 alone. tests/host.sh compiles this file with WRONG as each number below, which has to fail, and without, which
 * has to go well, in every version of C and C++ that the header is for.
 */
#include <string.h>

#include "milestarling.h"

int main(void)
{
    struct milestarling_session session;
    struct milestarling_vectors vectors;
    struct milestarling_vector_register found;
    struct milestarling_taint taint = MILESTARLING_TAINT_ALL;
    memset(&session, 0, sizeof session);
    memset(&vectors, 0, sizeof vectors);
    found = milestarling_vectors_get(&vectors, 2);
#if WRONG == 1
    milestarling_set_register(&session, 2, 5, 1);
#elif WRONG == 2
    milestarling_set_register(&session, 2, 5, 0);
#elif WRONG == 3
    milestarling_set_register(&session, 2, 5, milestarling_tainted(&session, 1));
#elif WRONG == 4
    session.taint[2] = 1;
#elif WRONG == 5
    memset(session.taint, 1, sizeof session.taint);
#elif WRONG == 6
    session.value_taint[2] = 1;
#elif WRONG == 7
    taint = 1;
#elif WRONG == 8
    if (milestarling_taint_of(&session, 2))
        taint = MILESTARLING_TAINT_NONE;
#elif WRONG == 9
    milestarling_set_vector(vectors.value, vectors.taint, 2, 5, 0, 1, taint);
#elif WRONG == 10
    milestarling_set_vector(vectors.value, vectors.taint, 2, 5, 0, taint, 0);
#elif WRONG == 11
    vectors.taint[2][0] = 1;
#elif WRONG == 12
    found.taint_high = 1;
#elif WRONG == 13
    milestarling_vectors_set(&vectors, 2, 1);
#endif
    session.value_taint[2] = taint;
    milestarling_set_register(&session, 3, 5, milestarling_taint_of(&session, 2));
    taint = milestarling_tainted(&session, 2) ? MILESTARLING_TAINT_ALL : MILESTARLING_TAINT_NONE;
    milestarling_set_register(&session, 4, 5, taint);
    found.taint_high = taint;
    vectors.taint[2][0] = taint;
    milestarling_vectors_set(&vectors, 2, found);
    milestarling_set_vector(vectors.value, vectors.taint, 2, 5, 0, taint, taint);
    return 0;
}
