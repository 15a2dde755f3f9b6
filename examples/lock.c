/* A login plugin that counts failed attempts under a spin lock, as a compiler writes it for a processor without atomic
   additions. tools/lock_example.py compiles it, writes its words to lock.bin, and says which of them are taken. */
struct attempts {
    unsigned locked;
    unsigned count;
};

void count_attempt(struct attempts *attempts)
{
    while (__atomic_exchange_n(&attempts->locked, 1, __ATOMIC_ACQUIRE))
        ;
    attempts->count++;
    __atomic_store_n(&attempts->locked, 0, __ATOMIC_RELEASE);
}
