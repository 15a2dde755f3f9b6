/*
 * Six pieces of a login plugin, which the host examples/plugin.c and the Rust example plugin.rs run. build.sh compiles
 * each into a file of its own.
 */
typedef unsigned char letter;

/* Whether two passwords of one length differ: every letter is looked at, and nothing is decided before the end. */
unsigned compare(const letter *given, const letter *stored, unsigned long length)
{
    unsigned differs = 0;
    do
        differs |= *given++ ^ *stored++;
    while (--length);
    return differs;
}

/* The same, but it stops at the first letter that differs: how long it runs tells how many are right. */
unsigned compare_early(const letter *given, const letter *stored, unsigned long length)
{
    do
        if (*given++ != *stored++)
            return 1;
    while (--length);
    return 0;
}

/* What a table has for a letter: where it is looked up tells four bits of the letter. */
unsigned look_up(const letter *given, const letter *table)
{
    return table[*given & 15];
}

/* A password, and behind it a doubleword of which the lowest byte is secret too, and the next one, a kind, is not. */
struct login {
    letter password[8];
    unsigned long keyed;
};

/* What a table has for the kind, of a doubleword that is spilled to the stack whole: the secret beside it chooses nothing. */
unsigned look_up_kind(const struct login *login, const letter *table)
{
    volatile unsigned long spilled = login->keyed;
    return table[*((volatile letter *)&spilled + 1)];
}

/* A copy of such a login, sixteen bytes at once by a vector register, and the letter of the copy that its kind chooses. */
unsigned copy_by_kind(const struct login *login, struct login *copy)
{
    *copy = *login;
    return copy->password[*((volatile letter *)&copy->keyed + 1)];
}

/* The same, with the letter that the first one chooses: a secret is one in the copy too. */
unsigned copy_by_letter(const struct login *login, struct login *copy)
{
    *copy = *login;
    return copy->password[*(volatile letter *)copy->password & 7];
}
