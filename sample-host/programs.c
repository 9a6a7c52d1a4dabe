#include "programs.h"

#include "sync.h"

/* Addresses of futex words and shared numbers; each process has its own. */
enum { MAP_MUTEX = 0, MAP_COND = 4, MAP_TILES = 8 };
enum { SECTIONS_MUTEX = 0 };
enum { KEY = 0, PRESSER_NAP = 4, LOGGER_NAP = 8 };

/* Sleeps for a time: a wait at a word that nobody wakes. */
static void nap(struct host *h, uint32_t word, uint64_t time)
{
    futex(h, (struct futex){.op = VRADOMIL_WAIT, .uaddr = word, .timed = true, .timeout = time});
}

/* Loads a tile for each painter, then tells them all. */
void map_loader(struct host *h)
{
    for (int round = 0; round < ROUNDS; round++) {
        pause_turn(h);
        mutex_lock(h, MAP_MUTEX);
        store(h, MAP_TILES, load(h, MAP_TILES) + PAINTERS);
        cond_broadcast(h, MAP_COND, MAP_MUTEX);
        mutex_unlock(h, MAP_MUTEX);
    }
}

void map_painter(struct host *h)
{
    for (int round = 0; round < ROUNDS; round++) {
        mutex_lock(h, MAP_MUTEX);
        while (load(h, MAP_TILES) == 0)
            cond_wait(h, MAP_COND, MAP_MUTEX);
        store(h, MAP_TILES, load(h, MAP_TILES) - 1);
        store(h, MAP_PAINTED, load(h, MAP_PAINTED) + 1);
        mutex_unlock(h, MAP_MUTEX);
    }
}

/* Gives up its turn inside the lock, with the old number in hand: without the lock two workers would count once. */
void section_worker(struct host *h)
{
    for (int round = 0; round < ROUNDS; round++) {
        mutex_lock(h, SECTIONS_MUTEX);
        uint32_t done = load(h, SECTIONS_DONE);
        pause_turn(h);
        store(h, SECTIONS_DONE, done + 1);
        mutex_unlock(h, SECTIONS_MUTEX);
    }
}

/* Waits for the key until a time, and says which of the two it was. */
static void await_key(struct host *h, uint64_t deadline)
{
    say(h, "waits for the key until %u", (unsigned)deadline);
    int32_t answer = futex(h, (struct futex){.op = VRADOMIL_WAIT_BITSET,
                                             .uaddr = KEY,
                                             .val = 0,
                                             .val3 = UINT32_MAX,
                                             .timed = true,
                                             .timeout = deadline});
    switch (answer) {
    case 0:
    case VRADOMIL_EAGAIN: /* pressed before the wait: no sleep, and nothing lost */
        say(h, "answer %d: the key is pressed, sprayer off", (int)answer);
        break;
    case VRADOMIL_ETIMEDOUT:
        say(h, "answer %d: no key, lamp test", (int)answer);
        break;
    default:
        say(h, "answer %d: shut down", (int)answer);
    }
}

void stop_key(struct host *h)
{
    await_key(h, 100);
    store(h, KEY, 0);
    await_key(h, 90);
    nap(h, KEY, 60); /* the key is pressed meanwhile: the wake ends the nap, and the word tells */
    await_key(h, 400);
    store(h, KEY, 0);
    await_key(h, 1000);
}

void key_presser(struct host *h)
{
    static const uint64_t naps[] = {35, 90};
    for (int press = 0; press < 2; press++) {
        nap(h, PRESSER_NAP, naps[press]);
        store(h, KEY, 1);
        int32_t woken = futex(h, (struct futex){.op = VRADOMIL_WAKE, .uaddr = KEY, .val = 1});
        say(h, "presses the key, wakes %d", (int)woken);
    }
}

/* Waits for the key, too, from before the stop key naps there: it arrived first, and has the lower priority. */
void key_logger(struct host *h)
{
    nap(h, LOGGER_NAP, 55);
    say(h, "waits for the key, to log it, until 200");
    int32_t answer = futex(h, (struct futex){.op = VRADOMIL_WAIT_BITSET,
                                             .uaddr = KEY,
                                             .val = 0,
                                             .val3 = UINT32_MAX,
                                             .timed = true,
                                             .timeout = 200});
    say(h, "answer %d: %s", (int)answer, answer == VRADOMIL_ETIMEDOUT ? "the stop key went first" : "logs the key");
}
