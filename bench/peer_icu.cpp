// ICU as a peer of the benchmark: nanoseconds per identifier for canonicalising,
// maximising and minimising, from the bytes of the identifier to the bytes of the
// result. Takes a file with one identifier a line; `--print` prints the three
// results of each identifier instead of measuring. `--keys` reads identifiers from
// standard input and prints each with its minimised form, as `keys` does.
//
// `Locale::createCanonical` corresponds to reading and canonicalising: it takes both
// separators, applies CLDR's aliases and keeps extensions. `Locale::forLanguageTag`
// doesn't take `_`, and needs a call of `canonicalize` for the aliases.
// `toLanguageTag` into a buffer on the stack corresponds to writing the result.

#include <cstdint>
#include <cstdio>
#include <cstring>
#include <ctime>
#include <fstream>
#include <string>
#include <vector>

#include <unicode/bytestream.h>
#include <unicode/locid.h>
#include <unicode/ulocdata.h>
#include <unicode/uversion.h>

namespace {

enum class Operation { canonicalise, maximise, minimise };

constexpr Operation operations[] = {
    Operation::canonicalise, Operation::maximise, Operation::minimise};

const char *name_of(Operation operation) {
    switch (operation) {
    case Operation::canonicalise:
        return "canonicalise";
    case Operation::maximise:
        return "maximise";
    default:
        return "minimise";
    }
}

// Writes the result; gives its length, or 0 where ICU refuses.
template <Operation operation> int32_t made(const char *identifier, char *out, int32_t out_len) {
    UErrorCode status = U_ZERO_ERROR;
    icu::Locale locale = icu::Locale::createCanonical(identifier);
    if (operation == Operation::maximise) {
        locale.addLikelySubtags(status);
    }
    if (operation == Operation::minimise) {
        locale.minimizeSubtags(status);
    }
    icu::CheckedArrayByteSink sink(out, out_len);
    locale.toLanguageTag(sink, status);
    bool failed = locale.isBogus() || U_FAILURE(status) || sink.Overflowed();
    return failed ? 0 : sink.NumberOfBytesWritten();
}

using Function = int32_t (*)(const char *, char *, int32_t);

Function function_of(Operation operation) {
    switch (operation) {
    case Operation::canonicalise:
        return made<Operation::canonicalise>;
    case Operation::maximise:
        return made<Operation::maximise>;
    default:
        return made<Operation::minimise>;
    }
}

// The results' lengths are summed, so that no call can be left out.
uint64_t sum = 0;

// Seconds of the processor for so many passes over the identifiers: the clock that ours has too.
double seconds(const std::vector<std::string> &identifiers, Function make, long passes) {
    char out[512];
    std::clock_t start = std::clock();
    for (long pass = 0; pass < passes; pass++) {
        for (const std::string &identifier : identifiers) {
            sum += make(identifier.c_str(), out, sizeof out);
        }
    }
    return static_cast<double>(std::clock() - start) / CLOCKS_PER_SEC;
}

// One measure of about a second.
double nanoseconds(const std::vector<std::string> &identifiers, Function make) {
    seconds(identifiers, make, 1);
    long passes = static_cast<long>(1 / seconds(identifiers, make, 1)) + 1;
    double taken = seconds(identifiers, make, passes);
    return taken * 1e9 / (static_cast<double>(passes) * static_cast<double>(identifiers.size()));
}

std::vector<std::string> lines_of(const char *path) {
    std::vector<std::string> lines;
    std::ifstream file(path);
    for (std::string line; std::getline(file, line);) {
        lines.push_back(line);
    }
    return lines;
}

// Asked and the three results, parted by tabs; `-` where ICU refuses.
void print(const std::vector<std::string> &identifiers) {
    for (const std::string &identifier : identifiers) {
        std::printf("%s", identifier.c_str());
        for (Operation operation : operations) {
            char out[512];
            int32_t length = function_of(operation)(identifier.c_str(), out, sizeof out);
            std::printf("\t%.*s", length ? length : 1, length ? out : "-");
        }
        std::printf("\n");
    }
}

// Lines of any number, with large reads and writes.
void keys() {
    static char in[1 << 16], written[1 << 16], line[1024];
    std::setvbuf(stdin, in, _IOFBF, sizeof in);
    std::setvbuf(stdout, written, _IOFBF, sizeof written);
    std::fputs("asked\tkept\n", stdout);
    while (std::fgets(line, sizeof line, stdin)) {
        line[std::strcspn(line, "\n")] = 0;
        char out[512];
        int32_t length = made<Operation::minimise>(line, out, sizeof out);
        std::fputs(line, stdout);
        std::fputc('\t', stdout);
        std::fwrite(length ? out : "-", 1, length ? length : 1, stdout);
        std::fputc('\n', stdout);
    }
}

void say_versions() {
    UVersionInfo version;
    char cldr[U_MAX_VERSION_STRING_LENGTH];
    UErrorCode status = U_ZERO_ERROR;
    ulocdata_getCLDRVersion(version, &status);
    u_versionToString(version, cldr);
    std::fprintf(stderr, "ICU %s, CLDR %s\n", U_ICU_VERSION, U_SUCCESS(status) ? cldr : "?");
}

} // namespace

int main(int argc, char **argv) {
    if (argc == 2 && std::strcmp(argv[1], "--keys") == 0) {
        keys();
        return 0;
    }
    bool printing = argc == 3 && std::strcmp(argv[1], "--print") == 0;
    if (argc != 2 && !printing) {
        std::fprintf(stderr, "usage: peer_icu [--print] FILE | --keys\n");
        return 1;
    }
    std::vector<std::string> identifiers = lines_of(argv[argc - 1]);
    if (identifiers.empty()) {
        std::fprintf(stderr, "no identifiers in %s\n", argv[argc - 1]);
        return 1;
    }
    if (printing) {
        print(identifiers);
        return 0;
    }
    say_versions();
    for (Operation operation : operations) {
        double taken = nanoseconds(identifiers, function_of(operation));
        std::printf("%s\t%.1f\n", name_of(operation), taken);
        std::fflush(stdout);
    }
    return sum == 0;
}
