/* Leaders from leaders: a leader without its highest place is a leader too, so that those of each weight are made from those of the weight
 * before, by rising number. No word is tried in vain, and none is counted. */
#ifndef LEADERS_H
#define LEADERS_H

#include <stdint.h>
#include <string.h>

/* leader[s] for the syndromes of c places; column[p] is the syndrome of the word with a one at place p alone. */
static inline void leaders_by_syndromes(unsigned n, unsigned c, const uint32_t *column, uint32_t *leader)
{
    uint16_t met[1 << 12];
    uint32_t size = 1u << c, from = 0, to = 1;
    memset(leader, 0xFF, size * sizeof *leader);
    leader[0] = 0;
    met[0] = 0;
    while (to < size) {
        uint32_t end = to, below = from;
        for (unsigned p = 0; p < n && end < size; p++) {
            while (below < to && leader[met[below]] >> p == 0)
                below++;
            uint32_t x = column[p], one = 1u << p;
            for (uint32_t i = from; i < below; i++) {
                uint32_t s = met[i] ^ x;
                if (leader[s] == UINT32_MAX) {
                    leader[s] = leader[met[i]] | one;
                    met[end++] = (uint16_t)s;
                }
            }
        }
        from = to;
        to = end;
    }
}

#endif
