// The look-ups and comparisons of the policy of one call over std::map, for bench/decisions.sh:
// `decisions WHAT TOKENS TIMES` prints how many of the calls were allowed.
#include <cstdint>
#include <cstdio>
#include <cstdlib>
#include <map>
#include <optional>
#include <string>
#include <string_view>
#include <vector>

enum class Kind { Account, UploadUrl, PartUrl, Download };

struct Grant {
    Kind kind;
    uint32_t key;
    uint32_t bucket;
    uint64_t file;
    std::string prefix;
    uint64_t end;
};

struct Key {
    uint32_t num;
    std::string name;
    bool caps[26] = {};
    std::vector<uint32_t> buckets;
    std::string prefix;
    std::optional<uint64_t> end;
};

struct Store {
    std::string account = "a1b2c3d4e5f6";
    std::map<std::string, Grant, std::less<>> grants;
    std::map<uint32_t, Key> keys;
    std::vector<std::string> texts;
};

constexpr uint32_t BUCKET = 7;
constexpr uint64_t NOW = 1000, DAY = 86400000, STRIDE = 7919;
constexpr int LIST_FILES = 4, READ_FILES = 5;

static Store store_of(uint32_t tokens) {
    Store store;
    uint32_t keys = tokens / 10;
    for (uint32_t num = 1; num <= keys; num++) {
        Key key{num, "backup", {}, {BUCKET}, "logs/", DAY};
        key.caps[LIST_FILES] = key.caps[READ_FILES] = true;
        store.keys.emplace(num, key);
    }
    for (uint32_t token = 0; token < tokens; token++) {
        char text[128];
        std::snprintf(text, sizeof text, "3_00000001_%016llx_%016llx_%016llx", (unsigned long long)token + 1, 0ULL, 0ULL);
        store.grants.emplace(text, Grant{Kind::Account, keys ? token % keys + 1 : 1, 0, 0, "", DAY});
        store.texts.push_back(text);
    }
    return store;
}

struct Asked {
    std::vector<Kind> kinds;
    std::vector<int> caps;
    std::optional<std::string_view> account;
    std::optional<uint32_t> bucket;
    std::optional<std::string_view> prefix;
};

// The first rule that fails, 0 where none does.
static int judge(const Store &store, const Grant *grant, const Key *key, const Asked &asked) {
    if (!grant) return 2;
    bool of_kind = false;
    for (Kind kind : asked.kinds) of_kind |= kind == grant->kind;
    if (!of_kind) return 3;
    if (!key) return 4;
    if (grant->end <= NOW) return 5;
    if (key->end && *key->end <= NOW) return 6;
    for (int cap : asked.caps)
        if (!key->caps[cap]) return 7;
    if (asked.account && *asked.account != store.account) return 8;
    if (!key->buckets.empty() && asked.bucket) {
        bool inside = false;
        for (uint32_t bucket : key->buckets) inside |= bucket == *asked.bucket;
        if (!inside) return 9;
    }
    if (asked.prefix && asked.prefix->substr(0, key->prefix.size()) != key->prefix) return 10;
    return 0;
}

int main(int count, char **words) {
    if (count != 4) return 1;
    bool is_policy = std::string_view(words[1]) == "policy";
    Store store = store_of(std::strtoul(words[2], nullptr, 10));
    uint64_t times = std::strtoull(words[3], nullptr, 10), sum = 0;
    Asked asked{{Kind::Account}, {LIST_FILES}, {}, BUCKET, "logs/2026/"};
    for (uint64_t turn = 0; turn < times; turn++) {
        const std::string &text = store.texts[turn * STRIDE % store.texts.size()];
        auto grant = store.grants.find(std::string_view(text));
        const Grant *given = grant == store.grants.end() ? nullptr : &grant->second;
        const Key *held = nullptr;
        if (given) {
            auto key = store.keys.find(given->key);
            held = key == store.keys.end() ? nullptr : &key->second;
        }
        sum += is_policy ? judge(store, given, held, asked) == 0 : held != nullptr;
    }
    std::printf("%llu\n", (unsigned long long)sum);
}
