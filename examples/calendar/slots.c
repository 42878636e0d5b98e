#include "slots.h"

/* The blocks of such an outage. */
static uint64_t length_of(const struct question *question, const struct swap *swap)
{
    return (uint64_t)question->slots * (question->slots_in_days ? blocks_per_day_of(swap) : 1);
}

/* The most blocks before an outage of this length with no warning: outage and margin are to end within the slack. The
 * greatest number where any number does no harm; -1 where none does. */
static int64_t wait_of(const struct question *question, uint64_t length, uint32_t slack)
{
    uint64_t reach = length + question->margin;

    if (slack >= SWAP_SLACK_MOST) {
        return INT64_MAX;
    }
    return slack >= reach ? (int64_t)(slack - reach) : -1;
}

static int64_t least(int64_t a, int64_t b)
{
    return a < b ? a : b;
}

/* The stretch of outages of this length that begin after so many blocks at most. */
static struct slot slot_of(int64_t wait, uint64_t length)
{
    struct slot slot = {1, SLOT_OPEN};

    if (wait < 0) {
        slot.last = 0;
    } else if (wait < INT64_MAX) {
        slot.last = (uint64_t)wait + length;
    }
    return slot;
}

struct slots slots_of(const struct question *question, const struct desk *desk, uint8_t side)
{
    int64_t now = INT64_MAX;
    int64_t done = INT64_MAX;
    uint64_t longest = 0;

    for (size_t i = 0; i < desk->count; i++) {
        const struct entry *entry = desk->entries[i];
        const struct stand *stand = &entry->stands[side];

        if (is_sound(entry) && is_shown(entry, side) && is_bounded(stand)) {
            uint64_t length = length_of(question, &entry->swap);

            longest = length > longest ? length : longest;
            now = least(now, wait_of(question, length, stand->slack));
            done = least(done, wait_of(question, length, stand->helps ? stand->then : stand->slack));
        }
    }
    return (struct slots){slot_of(now, longest), slot_of(done, longest)};
}

bool is_longer_done(const struct slots *slots)
{
    return slots->done.last != slots->now.last;
}
