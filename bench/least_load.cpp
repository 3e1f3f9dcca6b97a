// Does of a load of registered labels only what no test of a label can leave out: the peer of `idn2 --among`.
//
//     least_load FILE
//
// Each line is found and kept as two numbers, its bytes are compared with those of the line before, its UTF-8 is checked,
// and one table tells of each code point whether it may stand in a label. The table has the form of the program's, one
// byte for the block of each 128 code points and 128 bytes for each block, but it allows all. No rule of a label is asked
// here, and no length.

#include <cstdint>
#include <cstdio>
#include <cstring>
#include <string>
#include <vector>

namespace {

struct Span {
    uint32_t start, end;
};

// The block of each 128 code points, and the entries of the blocks: as many as the program has.
uint8_t blocks[8704];
uint8_t entries[247][128];

uint8_t fact_of(uint32_t point) {
    return entries[blocks[point / 128]][point % 128];
}

bool goes_on(uint8_t byte) {
    return (byte & 0xC0) == 0x80;
}

// Whether the bytes are UTF-8 (RFC 3629), of code points of which none has a fact.
bool passes(const uint8_t *at, const uint8_t *end) {
    uint8_t facts = 0;
    while (at < end) {
        uint32_t point = *at;
        if (point < 0x80) {
            at += 1;
        } else if (point >= 0xC2 && point <= 0xDF && end - at >= 2 && goes_on(at[1])) {
            point = (point & 0x1F) << 6 | (at[1] & 0x3F);
            at += 2;
        } else if ((point & 0xF0) == 0xE0 && end - at >= 3 && goes_on(at[1]) && goes_on(at[2])) {
            point = (point & 0xF) << 12 | (at[1] & 0x3F) << 6 | (at[2] & 0x3F);
            if (point < 0x800 || (point >= 0xD800 && point <= 0xDFFF)) {
                return false;
            }
            at += 3;
        } else if (point >= 0xF0 && point <= 0xF4 && end - at >= 4 && goes_on(at[1]) && goes_on(at[2]) && goes_on(at[3])) {
            point = (point & 7) << 18 | (at[1] & 0x3F) << 12 | (at[2] & 0x3F) << 6 | (at[3] & 0x3F);
            if (point < 0x10000 || point > 0x10FFFF) {
                return false;
            }
            at += 4;
        } else {
            return false;
        }
        facts |= fact_of(point);
    }
    return facts == 0;
}

std::string contents(const char *name) {
    std::string text;
    FILE *file = std::fopen(name, "rb");
    if (!file) {
        return text;
    }
    std::fseek(file, 0, SEEK_END);
    text.resize(std::ftell(file));
    std::rewind(file);
    text.resize(std::fread(&text[0], 1, text.size(), file));
    std::fclose(file);
    return text;
}

// How many lines there are, or none where one is wrong.
size_t load(const std::string &text) {
    std::vector<Span> spans;
    const char *last = text.data();
    size_t last_len = 0;
    for (size_t at = 0; at < text.size();) {
        const char *label = text.data() + at;
        const void *feed = std::memchr(label, '\n', text.size() - at);
        size_t len = feed ? static_cast<const char *>(feed) - label : text.size() - at;
        int order = std::memcmp(last, label, last_len < len ? last_len : len);
        const uint8_t *bytes = reinterpret_cast<const uint8_t *>(label);
        if (order > 0 || (order == 0 && last_len >= len) || !passes(bytes, bytes + len)) {
            return 0;
        }
        spans.push_back({static_cast<uint32_t>(at), static_cast<uint32_t>(at + len)});
        last = label;
        last_len = len;
        at += len + 1;
    }
    return spans.size();
}

} // namespace

int main(int count, char **words) {
    if (count != 2) {
        return 2;
    }
    for (size_t block = 0; block < sizeof blocks; ++block) {
        blocks[block] = block % 247;
    }
    return load(contents(words[1])) > 0 ? 0 : 1;
}
