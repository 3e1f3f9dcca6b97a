// Lists the variants of labels as a program over libidn2 would that holds them all: the peer of `idn2 --variants`.
//
//     listing_peer TABLE < LABELS
//
// The table's entries are found by the first code point of their sources. All spellings of a label are made and put in
// order; each that libidn2 registers is printed with its A-label. Both files must be well formed.

#include <algorithm>
#include <cstdio>
#include <fstream>
#include <iostream>
#include <string>
#include <unordered_map>
#include <vector>

#include <idn2.h>

namespace {

// A source, and what may stand in its place as UTF-8: itself and its variants.
struct Entry {
    std::u32string source;
    std::vector<std::string> replacements;
};

using Table = std::unordered_map<char32_t, std::vector<Entry>>;

std::vector<std::string> split(const std::string &text, char separator) {
    std::vector<std::string> parts;
    size_t start = 0;
    for (size_t end; (end = text.find(separator, start)) != std::string::npos; start = end + 1)
        parts.push_back(text.substr(start, end - start));
    parts.push_back(text.substr(start));
    return parts;
}

std::u32string sequence_of(const std::string &text) {
    std::u32string sequence;
    for (const std::string &code_point : split(text, '-'))
        sequence += static_cast<char32_t>(std::stoul(code_point, nullptr, 16));
    return sequence;
}

std::string utf8_of(const std::u32string &sequence) {
    std::string text;
    for (char32_t c : sequence) {
        if (c < 0x80) {
            text += static_cast<char>(c);
            continue;
        }
        int later = c < 0x800 ? 1 : c < 0x10000 ? 2 : 3;
        text += static_cast<char>((0xFF00 >> (later + 1) & 0xFF) | c >> 6 * later);
        while (later-- > 0)
            text += static_cast<char>(0x80 | (c >> 6 * later & 0x3F));
    }
    return text;
}

std::u32string code_points_of(const std::string &text) {
    std::u32string label;
    for (size_t at = 0; at < text.size();) {
        unsigned char first = text[at++];
        int later = first < 0x80 ? 0 : first < 0xE0 ? 1 : first < 0xF0 ? 2 : 3;
        char32_t c = later == 0 ? first : first & (0x3F >> later);
        while (later-- > 0)
            c = c << 6 | (text[at++] & 0x3F);
        label += c;
    }
    return label;
}

Table table_of(const char *path) {
    Table table;
    std::ifstream file(path);
    for (std::string line; std::getline(file, line);) {
        if (line.empty() || line[0] == '#')
            continue;
        std::vector<std::string> sides = split(line, '|');
        Entry entry{sequence_of(sides[0]), {}};
        entry.replacements.push_back(utf8_of(entry.source));
        if (sides.size() > 1)
            for (const std::string &variant : split(sides[1], ':'))
                entry.replacements.push_back(utf8_of(sequence_of(variant)));
        table[entry.source[0]].push_back(entry);
    }
    return table;
}

// Adds each spelling of the label that begins with `start`, which stands for the label before `place`.
void add_spellings(const Table &table, const std::u32string &label, size_t place, const std::string &start,
                   std::vector<std::string> &spellings) {
    if (place == label.size()) {
        spellings.push_back(start);
        return;
    }
    auto entries = table.find(label[place]);
    if (entries == table.end())
        return;
    for (const Entry &entry : entries->second)
        if (label.compare(place, entry.source.size(), entry.source) == 0)
            for (const std::string &replacement : entry.replacements)
                add_spellings(table, label, place + entry.source.size(), start + replacement, spellings);
}

// The order of UTF-8 is that of code points.
std::vector<std::string> spellings_of(const Table &table, const std::string &line) {
    std::vector<std::string> spellings;
    add_spellings(table, code_points_of(line), 0, "", spellings);
    std::sort(spellings.begin(), spellings.end());
    spellings.erase(std::unique(spellings.begin(), spellings.end()), spellings.end());
    return spellings;
}

} // namespace

int main(int argc, char **argv) {
    if (argc != 2)
        return 2;
    const Table table = table_of(argv[1]);
    std::ios::sync_with_stdio(false);
    for (std::string line; std::getline(std::cin, line);) {
        for (const std::string &spelling : spellings_of(table, line)) {
            uint8_t *a_label = nullptr;
            if (idn2_register_u8(reinterpret_cast<const uint8_t *>(spelling.c_str()), nullptr, &a_label, 0) != IDN2_OK)
                continue;
            std::cout << spelling << '\t' << reinterpret_cast<char *>(a_label) << '\n';
            idn2_free(a_label);
        }
    }
}
