// Reads groups of lists as `judge` does, right ones alone, and writes the same replies: up to 1,000 choices are tried one after
// another, and beyond that a SAT solver (CaDiCaL) decides. For bench/judge.py.
#include <cadical.hpp>
#include <cstdio>
#include <memory>
#include <string>
#include <vector>

struct Group {
    std::vector<int> sizes, firsts, rows, ends; // a row is its variable; the rows of all lists, and where each list ends
    void clear() { sizes.clear(), firsts.clear(), rows.clear(), ends.clear(); }
};

static constexpr long most_choices = 1000;
static std::string out;

static long choices(const Group &group) {
    long count = 1;
    for (int size : group.sizes)
        if ((count *= size) > most_choices) return most_choices + 1;
    return count;
}

static bool holds_some(const Group &group, const std::vector<int> &block_of, const std::vector<int> &choice) {
    int at = 0;
    for (int end : group.ends) {
        bool whole = true;
        for (int row = at; row < end && whole; row++) {
            int block = block_of[group.rows[row]];
            whole = group.firsts[block] + choice[block] == group.rows[row];
        }
        if (whole) return true;
        at = end;
    }
    return false;
}

static bool next(const Group &group, std::vector<int> &choice) {
    for (size_t block = group.sizes.size(); block-- > 0;) {
        if (++choice[block] <= group.sizes[block]) return true;
        choice[block] = 1;
    }
    return false;
}

static bool try_all(const Group &group, std::vector<int> &choice) {
    std::vector<int> block_of(1);
    for (size_t block = 0; block < group.sizes.size(); block++) block_of.insert(block_of.end(), group.sizes[block], block);
    choice.assign(group.sizes.size(), 1);
    do
        if (!holds_some(group, block_of, choice)) return true;
    while (next(group, choice));
    return false;
}

static bool solve(const Group &group, std::vector<int> &choice) {
    CaDiCaL::Solver solver;
    solver.set("quiet", 1);
    for (size_t block = 0; block < group.sizes.size(); block++) {
        for (int row = 1; row <= group.sizes[block]; row++) solver.add(group.firsts[block] + row);
        solver.add(0);
    }
    int at = 0;
    for (int end : group.ends) {
        for (; at < end; at++) solver.add(-group.rows[at]);
        solver.add(0);
    }
    if (solver.solve() != 10) return false;
    choice.assign(group.sizes.size(), 1);
    for (size_t block = 0; block < group.sizes.size(); block++)
        while (solver.val(group.firsts[block] + choice[block]) < 0) choice[block]++;
    return true;
}

static void judge(const Group &group) {
    std::vector<int> choice;
    bool open = choices(group) <= most_choices ? try_all(group, choice) : solve(group, choice);
    out += open ? "open" : "certain";
    if (open)
        for (int row : choice) out += ' ', out += std::to_string(row);
    out += '\n';
    if (out.size() > 65536) fwrite(out.data(), 1, out.size(), stdout), out.clear();
}

static int number(const char *&at) {
    int value = 0;
    while (*at >= '0' && *at <= '9') value = 10 * value + (*at++ - '0');
    return value;
}

static void read_sizes(const char *at, Group &group) {
    int first = 0;
    while (*at == ' ') {
        int size = number(++at);
        group.firsts.push_back(first);
        group.sizes.push_back(size);
        first += size;
    }
}

static void read_list(const char *at, Group &group) {
    while (*at == ' ') {
        int block = number(++at), row = number(++at);
        group.rows.push_back(group.firsts[block - 1] + row);
    }
    group.ends.push_back(group.rows.size());
}

int main() {
    Group group;
    char *line = nullptr;
    size_t room = 0;
    while (getline(&line, &room, stdin) > 0) {
        if (*line == 'g') group.clear(), read_sizes(line + 1, group);
        else if (*line == 'l') read_list(line + 1, group);
        else if (*line == 'e') judge(group);
    }
    fwrite(out.data(), 1, out.size(), stdout);
}
