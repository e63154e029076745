// The header is C++ too: compiled, not run.
#include "altazhbey.h"
#include <cstddef>
#include <cstdint>

static_assert(ALTAZHBEY_VERSION_MAJOR == 0 && sizeof ALTAZHBEY_VERSION > 1, "the version");
static_assert(ALTAZHBEY_ROW_CLASH == 14 && ALTAZHBEY_MISPLACED_EXTENSION == 16 && ALTAZHBEY_PARENTS == 3, "the numbers");

std::size_t length_of(std::uint64_t answer) {
    return altazhbey_number(answer) == ALTAZHBEY_DONE ? altazhbey_length(answer) : 0;
}

const char *words_of(std::uint64_t answer) { return altazhbey_meaning(altazhbey_number(answer)); }
