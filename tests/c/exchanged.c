/* Must not compile: the count of solutions is handed over where the count of steps is asked. tests/run sees to it that the compiler refuses it there. */
#include "dezgula.h"

dezgula_record exchanged(dezgula_record record);

dezgula_record exchanged(dezgula_record record)
{
    record.steps = record.found;
    return record;
}
