// The header in C++: the functions are called by their C names, and the constants are known.
#include "supertab.h"

int main() {
    const uint8_t command[] = {'c'}, user[] = {'u'}, host[] = {'h'}, none[] = {0};
    uint8_t buffer[SUPERTAB_BUFFER_LENGTH];
    int64_t report[SUPERTAB_REPORT_LENGTH];
    uint8_t answer = supertab_answer(none, 0, command, 1, user, 1, none, 0, host, 1, 0, false, 0, none, 0, buffer,
                                     sizeof buffer, report, SUPERTAB_REPORT_LENGTH);
    uint8_t record[SUPERTAB_RECORD_LENGTH];
    int64_t fields[SUPERTAB_FIELDS_LENGTH];
    uint8_t written = supertab_record_write(answer, 0, 0, false, false, 0, record, sizeof record);
    uint8_t read = supertab_record_read(record, sizeof record, fields, SUPERTAB_FIELDS_LENGTH);
    int64_t figures[SUPERTAB_FIGURES_LENGTH], refused;
    uint8_t made = supertab_figures_new(figures, SUPERTAB_FIGURES_LENGTH);
    uint8_t fed = supertab_figures_feed(figures, SUPERTAB_FIGURES_LENGTH, record, sizeof record, &refused, 1);
    const uint8_t file[] = {'A', 'L', 'L', ':', 'A', 'L', 'L', ':', 'D', 'E', 'N', 'Y', '\n'};
    int64_t line;
    uint8_t su = supertab_su_answer(file, sizeof file, user, 1, user, 1, nullptr, 0, &line, SUPERTAB_SU_REPORT_LENGTH);
    bool good = answer == SUPERTAB_NO_ENTRY && written == SUPERTAB_RECORD_DONE && read == SUPERTAB_RECORD_DONE &&
                fields[SUPERTAB_FIELD_NUMBER] == SUPERTAB_NO_ENTRY && made == SUPERTAB_FIGURES_DONE &&
                fed == SUPERTAB_FIGURES_DONE && figures[SUPERTAB_FIGURE_ANSWERS + answer] == 1 &&
                su == SUPERTAB_SU_DENY && line == 1;
    return good ? 0 : 1;
}
