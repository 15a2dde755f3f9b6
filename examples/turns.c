/*
 * Two sessions and one lock, by turns of one word each. Both run the spin lock of examples/lock.c over and over; its branches
 * and its arithmetic are this host's. What the host does with the monitor of the session whose turn it isn't decides what
 * becomes of the lock: where it observes each step, the two hold the lock in turn; where it is opened at each turn, nobody
 * ever gets it; and where it is left alone, both hold it at once, and attempts are lost.
 *
 *     turns examples/lock.bin
 */
#include <inttypes.h>
#include <stdio.h>

#include "milestarling.h"

/* Where the lock and its count are, and between which words of lock.c's function it is held. */
enum { LOCK = 0x1000, HELD = 0x18, GIVEN_BACK = 0x28, WORDS = 11, TURNS = 96 };

enum manner { OBSERVED, OPENED, LEFT_ALONE };
static const char *const manners[] = {"observed", "opened", "left alone"};

/* Does one word that doesn't touch memory, and returns what is wrong, or NULL. */
static const char *compute(struct milestarling_session *session, uint32_t word)
{
    const unsigned target = word & 31, source = (word >> 5) & 31;
    const uint64_t number = (word >> 10) & 0xfff;
    uint64_t known;
    if ((word & 0xffe00000) == 0x52800000) {            /* mov of a number */
        milestarling_set_register(session, target, (word >> 5) & 0xffff, MILESTARLING_TAINT_NONE);
    } else if ((word & 0xffc00000) == 0x11000000) {     /* add of a number, to 32 bits */
        milestarling_set_register(session, target, (uint32_t)(milestarling_value(session, source) + number),
            milestarling_taint_word(milestarling_taint_carried(milestarling_taint_of(session, source))));
    } else if ((word & 0xff000000) == 0x35000000) {     /* cbnz of 32 bits */
        if (!milestarling_known(session, target, &known))
            return "a branch on a tainted value";
        if ((uint32_t)known != 0) {
            const uint64_t field = (word >> 5) & 0x7ffff;
            session->pc += ((field ^ 0x40000) - 0x40000) * 4;
            return NULL;
        }
    } else if (word == 0xd65f03c0) {                    /* ret */
        return milestarling_known(session, 30, &session->pc) ? NULL : "a return to a tainted address";
    } else if (word != 0xd503201f) {                    /* nop */
        return "a word that this host doesn't know";
    }
    session->pc += 4;
    return NULL;
}

/* Does the next word of a session, and what the manner asks for the other's monitor. Returns what is wrong, or NULL. */
static const char *turn(const uint32_t *words, struct milestarling_memory memory, struct milestarling_session *session,
    struct milestarling_vectors *vectors, struct milestarling_session *other, enum manner manner)
{
    if (session->pc % 4 != 0 || session->pc / 4 >= WORDS)
        return "no word";
    const uint32_t word = words[session->pc / 4];
    if (manner == OPENED)
        milestarling_open(other);
    if (!milestarling_touches_memory_inline(word))
        return compute(session, word);
    const struct milestarling_step_reply reply = milestarling_session_step(memory, session, vectors, word);
    if (reply.answer != MILESTARLING_DONE)
        return milestarling_answer_text(reply.answer);
    if (manner == OBSERVED)
        milestarling_observe_step(other, reply);
    return NULL;
}

static int holds(const struct milestarling_session *session)
{
    return session->pc >= HELD && session->pc < GIVEN_BACK;
}

/* Lets the sessions take turns, and prints who takes the lock when. Returns whether every word was done. */
static int play(const uint32_t *words, enum manner manner)
{
    uint8_t bytes[8] = {0}, taint[8] = {0};
    const struct milestarling_memory memory = {
        .bytes = bytes, .length = sizeof bytes, .taint = taint, .taint_length = sizeof taint, .origin = LOCK};
    /* x30 is 0, where the function begins: it is called again when it returns. */
    struct milestarling_session sessions[2] = {{.pc = 0}, {.pc = 0}};
    struct milestarling_vectors vectors[2] = {0};
    int taken = 0, both = 0;
    for (int who = 0; who < 2; who++)
        milestarling_set_register(&sessions[who], 0, LOCK, MILESTARLING_TAINT_NONE);
    printf("%s:", manners[manner]);
    for (int i = 0; i < TURNS; i++) {
        const int who = i % 2, held = holds(&sessions[who]);
        const char *wrong = turn(words, memory, &sessions[who], &vectors[who], &sessions[1 - who], manner);
        if (wrong != NULL) {
            printf(" %c is stopped: %s\n", 'a' + who, wrong);
            return 0;
        }
        if (!held && holds(&sessions[who])) {
            printf("%s %c at turn %d", taken == 0 ? " taken by" : ",", 'a' + who, i);
            taken++;
        }
        both += holds(&sessions[0]) && holds(&sessions[1]);
    }
    printf("%s; of %d turns both hold it in %d; it is taken %d times, and %d attempts are counted\n",
        taken == 0 ? " taken by nobody" : "", TURNS, both, taken, bytes[4]);
    return 1;
}

int main(int count, char **names)
{
    uint8_t image[4 * WORDS];
    uint32_t words[WORDS];
    FILE *file = count == 2 ? fopen(names[1], "rb") : NULL;
    if (file == NULL || fread(image, 1, sizeof image, file) != sizeof image) {
        fputs("turns: name examples/lock.bin\n", stderr);
        return 1;
    }
    fclose(file);
    for (size_t i = 0; i < WORDS; i++)
        words[i] = image[4 * i] | (uint32_t)image[4 * i + 1] << 8 | (uint32_t)image[4 * i + 2] << 16
            | (uint32_t)image[4 * i + 3] << 24;
    return !(play(words, OBSERVED) && play(words, OPENED) && play(words, LEFT_ALONE));
}
