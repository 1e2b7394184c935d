// A std::priority_queue with the agenda's keys: pq pairs|rekeys PENDING TURNS.
#include <algorithm>
#include <cstdint>
#include <cstdio>
#include <cstdlib>
#include <cstring>
#include <queue>
#include <vector>

struct Entry {
    uint64_t moment, rank, place, cell;
};

// By moment, rank, place and cell, the least on top.
struct Later {
    bool operator()(const Entry& a, const Entry& b) const {
        if (a.moment != b.moment) return a.moment > b.moment;
        if (a.rank != b.rank) return a.rank > b.rank;
        if (a.place != b.place) return a.place > b.place;
        return a.cell > b.cell;
    }
};

struct Queue : std::priority_queue<Entry, std::vector<Entry>, Later> {
    // Drops the entries that have not their cell's rank.
    void clear_stale(const std::vector<uint64_t>& ranks) {
        std::vector<Entry> live;
        for (const Entry& entry : c)
            if (ranks[entry.cell] == entry.rank) live.push_back(entry);
        c.swap(live);
        std::make_heap(c.begin(), c.end(), comp);
    }
};

int main(int count, char** words) {
    if (count < 4) return 1;
    bool pairs = !strcmp(words[1], "pairs");
    uint64_t pending = strtoull(words[2], nullptr, 10), turns = strtoull(words[3], nullptr, 10);
    uint64_t chance = 88172645463325252ull, rank = 0, sum = 0;
    auto after = [&] {
        chance ^= chance << 13;
        chance ^= chance >> 7;
        chance ^= chance << 17;
        return chance;
    };
    Queue queue;
    std::vector<uint64_t> ranks;
    for (uint64_t cell = 0; cell < pending; cell++) {
        ranks.push_back(rank);
        queue.push({after() % 1000000, rank++, 0, cell});
    }
    for (uint64_t turn = 0; pairs && turn < turns; turn++) {
        uint64_t later = 1 + after() % 1000000;
        Entry entry = queue.top();
        queue.pop();
        sum += entry.cell;
        entry.moment += later;
        entry.rank = rank++;
        queue.push(entry);
    }
    for (uint64_t turn = 0; !pairs && turn < turns; turn++) {
        uint64_t cell = turn % pending;
        ranks[cell] = rank;
        queue.push({after() % 1000000, rank++, 0, cell});
        if (queue.size() > 2 * pending + 64) queue.clear_stale(ranks);
    }
    printf("%llu\n", (unsigned long long)sum);
}
