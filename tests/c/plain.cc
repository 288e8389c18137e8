// The library from C++: both headers, every struct, and the shared library's calls. Exits with 1 at the first surprise.
#include "dezgula.h"
#include "dezgula_text.h"

#include <cstdio>
#include <cstring>
#include <vector>

namespace {

int surprise(const char *what)
{
    std::printf("SURPRISE: %s\n", what);
    return 1;
}

} // namespace

int main()
{
    const char text[] = "x1 = x2 + 2*x3 - 3*x4\n3*x2 = x1 + 2*x3 + x4\n";
    std::vector<int32_t> coefs(DEZGULA_MAP_COEFFICIENTS), rights(DEZGULA_MAP_RIGHTS);
    dezgula_system system{};
    uint64_t within = 0;
    uint64_t answer = dezgula_read_system(text, std::strlen(text), 4, coefs.data(), coefs.size(), rights.data(), rights.size(), &system, &within);
    if (dezgula_number(answer) != DEZGULA_SYSTEM_READ || dezgula_place(answer) != 2) return surprise(dezgula_sentence(answer));

    std::vector<uint32_t> stack(DEZGULA_STACK_LENGTH(system.q)), list;
    dezgula_run run{};
    run.stack = stack.data();
    run.stack_len = stack.size();
    answer = dezgula_start(&system, &run);
    while (answer == DEZGULA_STARTED || answer == DEZGULA_PAUSED || answer == DEZGULA_LIST_FULL) {
        if (answer == DEZGULA_LIST_FULL) {
            list.resize(list.size() + system.q);
            run.list = list.data();
            run.list_len = list.size();
        }
        answer = dezgula_resume(&system, &run, 5);
    }
    if (answer != DEZGULA_COMPLETE || run.record.found.count != 2) return surprise(dezgula_sentence(answer));

    const dezgula_list rows = dezgula_listed(&run);
    const std::vector<uint32_t> tuple{4, 3, 2, 2};
    int64_t amount = 0;
    answer = dezgula_reason(&system, &rows, tuple.data(), tuple.size(), &amount);
    if (dezgula_number(answer) != DEZGULA_OFF || dezgula_place(answer) != 1 || amount != 3) return surprise("another reason");
    std::vector<uint8_t> file(DEZGULA_FILE_LENGTH(system.p, system.q, rows.found));
    answer = dezgula_write_list(&system, &rows, DEZGULA_FILE_COMPLETE, file.data(), file.size());
    if (answer != DEZGULA_LIST_WRITTEN) return surprise(dezgula_sentence(answer));
    std::printf("C++: %s Version %s\n", dezgula_sentence(DEZGULA_COMPLETE), dezgula_version());
    return 0;
}
