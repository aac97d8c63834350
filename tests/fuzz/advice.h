/* What both fuzzing programs compare of a table: the advice for a list, the quick one with its count, and keys. */
#include "../../bench/peer/peer.h"
#include "../../include/vienghulac.h"
#include "lend.h"

static inline void compare_quick(block table, block list, bool mutual, bool reply) {
    vienghulac_quick a = vienghulac_recommend_quick(table.at, table.length, list.at, list.length, mutual, reply);
    peer_quick b = peer_recommend_quick(table.at, table.length, list.at, list.length, mutual, reply);
    same("recommend_quick", a.number, b.number);
    same("index of recommend_quick", a.index, b.index);
    same("advice of recommend_quick", a.advice, b.advice);
    same("count of recommend_quick", a.looked_up, b.looked_up);
}

/* The keys are those of the first `places` recipients. */
static inline void compare_advice(block table, block list, bool mutual, bool reply, uint64_t places) {
    vienghulac_advice a = vienghulac_recommend(table.at, table.length, list.at, list.length, mutual, reply);
    peer_advice b = peer_recommend(table.at, table.length, list.at, list.length, mutual, reply);
    same("recommend", a.number, b.number);
    same("index of recommend", a.index, b.index);
    same("advice", a.advice, b.advice);
    compare_quick(table, list, mutual, reply);
    for (uint64_t place = 0; place < places; place++) {
        vienghulac_part p = vienghulac_target_key(table.at, table.length, list.at, list.length, mutual, reply, place);
        peer_part q = peer_target_key(table.at, table.length, list.at, list.length, mutual, reply, place);
        same("start of a key", p.start, q.start);
        same("length of a key", p.length, q.length);
    }
}
