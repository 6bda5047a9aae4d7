// Checks pairs of files with the proved library: example FORMULA CERTIFICATE [FORMULA CERTIFICATE ...]
// A certificate whose name ends in .ferp is a FERP one, every other a FERAT one. One pair is one check; several are one list of
// checks in the same tables. Prints the seven fields for each pair and, for a refusal, the line that it names. Exit status:
// 0 all accepted, 1 one refused, 2 trouble.
#include "hutsvida.h"

#include <array>
#include <cstdio>
#include <string_view>
#include <vector>

namespace {

using Bytes = std::vector<uint8_t>;

struct Tables {
    // Places for all that files of document 01's limits can need.
    std::array<std::vector<int32_t>, 6> stores{
        std::vector<int32_t>(4096),   std::vector<int32_t>(524288), std::vector<int32_t>(524288),
        std::vector<int32_t>(524288), std::vector<int32_t>(524288), std::vector<int32_t>(16384)};

    int32_t *at(size_t table) { return hutsvida_table(stores[table].data(), stores[table].size()); }
    size_t length(size_t table) const { return stores[table].size(); }
};

// A file's bytes to lend: those of an empty file may be a null pointer.
const uint8_t *lent(const Bytes &bytes) { return hutsvida_bytes(bytes.data(), bytes.size()); }

bool read_file(const char *name, Bytes &bytes) {
    std::FILE *file = std::fopen(name, "rb");
    if (file == nullptr) return false;
    uint8_t part[65536];
    bytes.clear();
    for (size_t n; (n = std::fread(part, 1, sizeof part, file)) > 0;) bytes.insert(bytes.end(), part, part + n);
    bool whole = std::ferror(file) == 0;
    std::fclose(file);
    return whole;
}

uint32_t kind_of(std::string_view name) {
    const std::string_view end = ".ferp";
    bool ferp = name.size() >= end.size() && name.substr(name.size() - end.size()) == end;
    return ferp ? HUTSVIDA_FERP : HUTSVIDA_FERAT;
}

void check(uint32_t kind, const Bytes &formula, const Bytes &certificate, Tables &t, uint32_t *seven) {
    auto call = kind == HUTSVIDA_FERP ? hutsvida_check_ferp : hutsvida_check;
    call(lent(formula), formula.size(), lent(certificate), certificate.size(), t.at(0), t.length(0), t.at(1), t.length(1),
         t.at(2), t.length(2), t.at(3), t.length(3), t.at(4), t.length(4), t.at(5), t.length(5), seven);
}

void check_all(const std::vector<uint32_t> &kinds, const std::vector<Bytes> &files, Tables &t, std::vector<uint32_t> &out) {
    Bytes bytes;
    std::vector<size_t> ends;
    for (const Bytes &file : files) {
        bytes.insert(bytes.end(), file.begin(), file.end());
        ends.push_back(bytes.size());
    }
    hutsvida_check_all(lent(bytes), bytes.size(), hutsvida_ends(ends.data(), ends.size()), ends.size(),
                       hutsvida_kinds(kinds.data(), kinds.size()), kinds.size(), t.at(0), t.length(0), t.at(1), t.length(1),
                       t.at(2), t.length(2), t.at(3), t.length(3), t.at(4), t.length(4), t.at(5), t.length(5),
                       hutsvida_out(out.data(), out.size()), out.size());
}

void print(const uint32_t *seven, const Bytes &formula, const Bytes &certificate) {
    std::printf("%s", seven[HUTSVIDA_WORD] == HUTSVIDA_ACCEPTED ? "accepted" : "refused");
    for (int field = HUTSVIDA_NUMBER; field < HUTSVIDA_FIELDS; field++) std::printf(",%u", seven[field]);
    std::printf("\n");
    if (seven[HUTSVIDA_LINE] == 0) return;
    size_t ends[2];
    hutsvida_line(lent(formula), formula.size(), lent(certificate), certificate.size(), seven[HUTSVIDA_FILE],
                  seven[HUTSVIDA_LINE], ends);
    const Bytes &file = seven[HUTSVIDA_FILE] == 1 ? formula : certificate;
    std::printf("  ");
    for (size_t i = ends[0]; i < ends[1]; i++) std::putchar(file[i] < 32 || 126 < file[i] ? '.' : file[i]);
    std::printf("\n");
}

}  // namespace

int main(int count, char **names) {
    if (count < 3 || count % 2 == 0) {
        std::fprintf(stderr, "usage: example FORMULA CERTIFICATE [FORMULA CERTIFICATE ...]\n");
        return 2;
    }
    std::vector<Bytes> files(count - 1);
    for (int i = 1; i < count; i++) {
        if (!read_file(names[i], files[i - 1])) {
            std::fprintf(stderr, "example: cannot read %s\n", names[i]);
            return 2;
        }
    }
    std::vector<uint32_t> kinds;
    for (int i = 2; i < count; i += 2) kinds.push_back(kind_of(names[i]));
    Tables tables;
    std::vector<uint32_t> out(kinds.size() * HUTSVIDA_FIELDS);
    if (kinds.size() == 1) {
        check(kinds[0], files[0], files[1], tables, out.data());
    } else {
        check_all(kinds, files, tables, out);
    }
    bool all = true;
    for (size_t i = 0; i < files.size(); i += 2) {
        const uint32_t *seven = &out[i / 2 * HUTSVIDA_FIELDS];
        print(seven, files[i], files[i + 1]);
        all = all && seven[HUTSVIDA_WORD] == HUTSVIDA_ACCEPTED;
    }
    if (std::fflush(stdout) != 0 || std::ferror(stdout) != 0) {
        std::fprintf(stderr, "example: cannot print the verdicts\n");
        return 2;
    }
    return all ? 0 : 1;
}
