// A straight scan for the range of `sum y .. where y > 0` over rows (key, number), to measure `range sum` beside it: rows in block
// order, each a vector of values; each key is compared with the one before, and both ends are kept with the places of their rows.
// It makes its own rows, 1,000,000, with 2^K of them in each block (K is the argument), checks nothing, and prints milliseconds.

#include <algorithm>
#include <chrono>
#include <cstdint>
#include <cstdio>
#include <cstdlib>
#include <string>
#include <variant>
#include <vector>

using Value = std::variant<int64_t, std::string>;
using Row = std::vector<Value>;

struct End {
    __int128 total = 0;
    std::vector<uint32_t> places;
};

static void scan(const std::vector<Row>& rows, End& low, End& high) {
    for (size_t i = 0; i < rows.size();) {
        size_t next = i, least_at = i, most_at = i;
        int64_t least = 0, most = 0;
        for (; next < rows.size() && rows[next][0] == rows[i][0]; next++) {
            const int64_t number = std::get<int64_t>(rows[next][1]), worth = number > 0 ? number : 0;
            if (next == i || worth < least) least = worth, least_at = next;
            if (next == i || worth > most) most = worth, most_at = next;
        }
        low.total += least, low.places.push_back(least_at);
        high.total += most, high.places.push_back(most_at);
        i = next;
    }
}

int main(int count, char** words) {
    const int shift = count > 1 ? atoi(words[1]) : 0;
    std::vector<Row> rows;
    for (int64_t i = 0; i < 1000000; i++) rows.push_back({i >> shift, (i * 7919 & 0xFFFFF) - 500000});
    std::sort(rows.begin(), rows.end());
    for (int run = 0; run < 10; run++) {
        const auto start = std::chrono::steady_clock::now();
        End low, high;
        scan(rows, low, high);
        const std::chrono::duration<double, std::milli> took = std::chrono::steady_clock::now() - start;
        printf("%.1f ms, from %lld to %lld in %zu blocks\n", took.count(), (long long)low.total, (long long)high.total, low.places.size());
    }
}
