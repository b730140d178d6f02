/* The deposits of docs/TUTORIAL.md by the library: a line for each, with its last day, due date and makeup date as days of the year. */
#include <stdio.h>

#include "ftd.h"

enum { COUNT = 12 };

static const uint32_t HOLIDAYS_2024[COUNT][2] = {{1, 1}, {1, 15}, {2, 19}, {4, 16}, {5, 27}, {6, 19}, {7, 4}, {9, 2}, {10, 14}, {11, 11}, {11, 28}, {12, 25}};
static const uint32_t HOLIDAYS_2025[COUNT][2] = {{1, 1}, {1, 20}, {2, 17}, {4, 16}, {5, 26}, {6, 19}, {7, 4}, {9, 1}, {10, 13}, {11, 11}, {11, 27}, {12, 25}};

/* Which month and day of the month a day is, with its year. */
static void print_day(uint32_t day) {
    if (day >= FTD_NO_MEMORY) {
        printf(" %s", day == FTD_NO_MEMORY ? "no-memory" : "out-of-range");
        return;
    }
    for (uint32_t year = 1900; year < 2200; year++)
        for (uint32_t month = 1; month <= 12; month++) {
            uint32_t first = ftd_day(year, month, 1);
            if (first <= day && ftd_day(year, month, day - first + 1) == day)
                printf(" %04u-%02u-%02u", (unsigned)year, (unsigned)month, (unsigned)(day - first + 1));
        }
}

static void days_of(uint32_t year, const uint32_t holidays[COUNT][2], uint32_t days[COUNT]) {
    for (int at = 0; at < COUNT; at++)
        days[at] = ftd_day(year, holidays[at][0], holidays[at][1]);
}

struct deposit {
    const char *name;
    uint16_t form;
    uint8_t rule;
    uint32_t year, month, day;
};

static const struct deposit DEPOSITS[] = {
    {"bakery", 941, FTD_MONTHLY, 2024, 1, 31},
    {"bakery", 941, FTD_MONTHLY, 2024, 2, 29},
    {"bakery", 941, FTD_MONTHLY, 2024, 3, 31},
    {"bakery", 941, FTD_NEXT_DAY, 2024, 5, 10},
    {"bakery", 941, FTD_MONTHLY, 2024, 5, 31},
    {"bakery", 941, FTD_SEMIWEEKLY, 2025, 1, 10},
    {"farm", 943, FTD_MONTHLY, 2024, 3, 31},
    {"nobody", 942, FTD_MONTHLY, 2024, 3, 31},
};

int main(void) {
    uint32_t of_2024[COUNT], of_2025[COUNT], of_2026[1] = {0};
    days_of(2024, HOLIDAYS_2024, of_2024);
    days_of(2025, HOLIDAYS_2025, of_2025);
    for (size_t at = 0; at < sizeof DEPOSITS / sizeof *DEPOSITS; at++) {
        const struct deposit *it = &DEPOSITS[at];
        uint32_t last = ftd_day(it->year, it->month, it->day);
        const uint32_t *this_year = it->year == 2024 ? of_2024 : of_2025, *next_year = it->year == 2024 ? of_2025 : of_2026;
        size_t next_count = it->year == 2024 ? COUNT : 0;
        printf("%s %u", it->name, (unsigned)it->form);
        print_day(last);
        print_day(ftd_due(it->rule, last, this_year, COUNT, next_year, next_count));
        print_day(ftd_makeup(it->form, it->rule, last, this_year, COUNT, next_year, next_count));
        print_day(ftd_return_due(it->form, last, this_year, COUNT, next_year, next_count));
        printf("\n");
    }
    ftd_case february = {607200, 600000, 600000, ftd_day(2024, 3, 15), ftd_day(2024, 4, 30), ftd_day(2024, 4, 30), ftd_day(2024, 3, 20), false, false};
    printf("verdicts %u", (unsigned)ftd_verdict(&february));
    february.as_of = ftd_day(2024, 5, 1);
    printf(" %u", (unsigned)ftd_verdict(&february));
    february.paid_makeup = 607200;
    printf(" %u", (unsigned)ftd_verdict(&february));
    february.due = FTD_OUT_OF_RANGE;
    printf(" %u\n", (unsigned)ftd_verdict(&february));
    return 0;
}
