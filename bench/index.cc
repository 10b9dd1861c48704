// Spots of names in ordered maps and in SQLite, for bench/index.sh: `index MAP WHAT ROWS TIMES` with a MAP of std,
// absl and sqlite prints the sum that `bench_index WHAT ROWS TIMES` prints.
#include <absl/container/btree_map.h>
#include <sqlite3.h>

#include <cstdint>
#include <cstdio>
#include <cstdlib>
#include <map>
#include <string>
#include <string_view>
#include <vector>

constexpr uint64_t FOLDERS = 1000, PAGE = 1000, STRIDE = 7919, LAST = 9007199254740991;

static uint64_t place_at(uint64_t turn, uint64_t places) { return places ? turn * STRIDE % places : 0; }

static std::string name_at(uint64_t place, uint64_t rows) {
    uint64_t most = std::max<uint64_t>(rows / FOLDERS, 1), folder = place / most, picture = place % most;
    std::string name = "folder-0000/picture-000000.jpg";
    for (int i = 10; i > 6; i--, folder /= 10) name[i] = '0' + folder % 10;
    for (int i = 25; i > 19; i--, picture /= 10) name[i] = '0' + picture % 10;
    return name;
}

struct Spot {
    uint32_t bucket;
    std::string name;
    uint64_t num;
};

// By bucket, by the bytes of the name, and within a name from the greatest number down.
struct Listed {
    bool operator()(const Spot &a, const Spot &b) const {
        if (a.bucket != b.bucket) return a.bucket < b.bucket;
        int order = a.name.compare(b.name);
        return order ? order < 0 : a.num > b.num;
    }
};

// A row of a page: a name and a number, or a folder.
struct Row {
    std::string name;
    uint64_t num;
};

struct Start {
    std::string name;
    bool folders;
};

static Start start_at(std::string_view what, uint64_t turn, uint64_t rows) {
    uint64_t places = rows > PAGE ? rows - PAGE : 1;
    std::string name = name_at(place_at(turn, places), rows);
    if (what == "folders") return {"", true};
    return {name, false};
}

// An ordered map. A page of names passes over the older versions of a name by a search, as do folders.
template <class Map>
struct Maps {
    Map map;

    void fill(uint64_t rows) {
        for (uint64_t turn = 0; turn < rows; turn++) map.emplace(Spot{1, name_at(place_at(turn, rows), rows), turn}, turn);
    }

    uint64_t seek(const std::string &name) {
        auto found = map.lower_bound(Spot{1, name, LAST});
        return found == map.end() || found->first.bucket != 1 ? 0 : found->second;
    }

    std::vector<Row> page(std::string_view what, const Start &start) {
        std::vector<Row> rows;
        auto at = map.lower_bound(Spot{1, start.name, LAST});
        while (rows.size() <= PAGE && at != map.end() && at->first.bucket == 1) {
            const std::string &name = at->first.name;
            size_t slash = start.folders ? name.find('/') : std::string::npos;
            if (slash != std::string::npos) {
                std::string folder = name.substr(0, slash + 1), next = folder;
                next.back()++;
                rows.push_back({std::move(folder), 0});
                at = map.lower_bound(Spot{1, std::move(next), LAST});
            } else if (what == "names") {
                rows.push_back({name, at->first.num});
                at = map.lower_bound(Spot{1, name + '\0', LAST});
            } else {
                rows.push_back({name, at->first.num});
                ++at;
            }
        }
        if (rows.size() > PAGE) rows.pop_back();
        return rows;
    }
};

static void must(int code, int wanted = SQLITE_OK) {
    if (code != wanted) std::exit(3);
}

// One table in memory with the same key, and each statement prepared once.
struct Sqlite {
    sqlite3 *base = nullptr;
    sqlite3_stmt *add = nullptr, *find = nullptr, *walk = nullptr;

    Sqlite() {
        must(sqlite3_open(":memory:", &base));
        run("create table rows (bucket integer not null, name blob not null, num integer not null, value integer not null,"
            " primary key (bucket, name, num desc)) without rowid");
        make(&add, "insert into rows values (1, ?1, ?2, ?2)");
        make(&find, "select name, num, value from rows where bucket = 1 and name >= ?1 order by name, num desc limit 1");
        make(&walk, "select name, num from rows where bucket = 1 and name >= ?1 order by name, num desc limit ?2");
    }
    ~Sqlite() {
        for (auto *each : {add, find, walk}) sqlite3_finalize(each);
        sqlite3_close(base);
    }

    void run(const char *text) { must(sqlite3_exec(base, text, nullptr, nullptr, nullptr)); }
    void make(sqlite3_stmt **into, const char *text) { must(sqlite3_prepare_v2(base, text, -1, into, nullptr)); }
    static void name(sqlite3_stmt *it, const std::string &name) {
        must(sqlite3_bind_blob(it, 1, name.data(), name.size(), SQLITE_STATIC));
    }
    static std::string name_of(sqlite3_stmt *it) {
        return {static_cast<const char *>(sqlite3_column_blob(it, 0)), static_cast<size_t>(sqlite3_column_bytes(it, 0))};
    }

    void fill(uint64_t rows) {
        run("begin");
        for (uint64_t turn = 0; turn < rows; turn++) {
            std::string text = name_at(place_at(turn, rows), rows);
            name(add, text);
            must(sqlite3_bind_int64(add, 2, turn));
            must(sqlite3_step(add), SQLITE_DONE);
            must(sqlite3_reset(add));
        }
        run("commit");
    }

    uint64_t seek(const std::string &text) {
        name(find, text);
        uint64_t value = sqlite3_step(find) == SQLITE_ROW ? sqlite3_column_int64(find, 2) : 0;
        must(sqlite3_reset(find));
        return value;
    }

    std::vector<Row> page(std::string_view, const Start &start) {
        std::vector<Row> rows;
        if (start.folders) {
            std::string at = start.name;
            while (rows.size() <= PAGE) {
                name(find, at);
                if (sqlite3_step(find) != SQLITE_ROW) {
                    must(sqlite3_reset(find));
                    break;
                }
                std::string text = name_of(find), folder = text.substr(0, text.find('/') + 1);
                must(sqlite3_reset(find));
                at = folder;
                at.back()++;
                rows.push_back({std::move(folder), 0});
            }
        } else {
            name(walk, start.name);
            must(sqlite3_bind_int64(walk, 2, PAGE + 1));
            while (sqlite3_step(walk) == SQLITE_ROW)
                rows.push_back({name_of(walk), static_cast<uint64_t>(sqlite3_column_int64(walk, 1))});
            must(sqlite3_reset(walk));
        }
        if (rows.size() > PAGE) rows.pop_back();
        return rows;
    }
};

template <class Store>
static uint64_t sum(std::string_view what, uint64_t rows, uint64_t times) {
    Store store;
    uint64_t sum = 0;
    store.fill(rows);
    for (uint64_t turn = 0; turn < times; turn++) {
        if (what == "seek") {
            sum += store.seek(name_at(place_at(turn, rows), rows));
        } else {
            sum += store.page(what, start_at(what, turn, rows)).size();
        }
    }
    return sum;
}

int main(int count, char **words) {
    if (count < 5) return 1;
    std::string_view map = words[1], what = words[2];
    uint64_t rows = std::strtoull(words[3], nullptr, 10), times = std::strtoull(words[4], nullptr, 10), told;
    if (map == "std") told = sum<Maps<std::map<Spot, uint64_t, Listed>>>(what, rows, times);
    else if (map == "absl") told = sum<Maps<absl::btree_map<Spot, uint64_t, Listed>>>(what, rows, times);
    else if (map == "sqlite") told = sum<Sqlite>(what, rows, times);
    else return 1;
    std::printf("%llu\n", static_cast<unsigned long long>(told));
    return 0;
}
