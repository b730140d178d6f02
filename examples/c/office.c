/* An employer by messages of HTTP, which a desk in memory answers: for each answer its status and its body. docs/HTTP.md says what may be asked. */
#include <stdio.h>
#include <stdlib.h>
#include <string.h>

#include "ftd.h"

struct message {
    const char *method, *target, *body;
};

static const struct message MESSAGES[] = {
    {"POST", "/calendars", "{\"year\":2024,\"days\":[\"2024-01-01\",\"2024-01-15\",\"2024-02-19\"]}"},
    {"POST", "/calendars", "{\"year\":2025,\"days\":[]}"},
    {"POST", "/accounts", "{\"account\":\"bakery\",\"start\":\"2022-07-01\"}"},
    {"POST", "/accounts/bakery/reported", "{\"quarter\":\"2022Q3\",\"amount\":\"10000.00\"}"},
    {"POST", "/accounts/bakery/reported", "{\"quarter\":\"2022Q4\",\"amount\":\"11000.00\"}"},
    {"POST", "/accounts/bakery/reported", "{\"quarter\":\"2023Q1\",\"amount\":\"12000.00\"}"},
    {"POST", "/accounts/bakery/reported", "{\"quarter\":\"2023Q2\",\"amount\":\"20000.00\"}"},
    {"POST", "/accounts/bakery/years", "{\"year\":2024}"},
    {"POST", "/accounts/bakery/runs", "{\"run\":1,\"payday\":\"2024-01-12\",\"fit\":\"5000.00\",\"ss\":\"3100.00\",\"medicare\":\"725.00\"}"},
    {"GET", "/owed/2024-01-16/2024-01-31/csv", ""},
    {"GET", "/accounts/bakery/status/2025-01-02", ""},
};

/* The bytes of all messages. */
static size_t write_messages(char *bytes, size_t room) {
    size_t count = 0;
    for (size_t at = 0; at < sizeof MESSAGES / sizeof *MESSAGES; at++) {
        const struct message *it = &MESSAGES[at];
        count += (size_t)snprintf(bytes + count, room - count, "%s %s HTTP/1.1\r\nContent-Length: %zu\r\n\r\n%s", it->method, it->target, strlen(it->body), it->body);
    }
    return count;
}

/* The status and the body of each answer. */
static void print_answers(const char *at) {
    while (*at != '\0') {
        int status = 0;
        size_t length = 0;
        const char *field = strstr(at, "Content-Length: "), *end = strstr(at, "\r\n\r\n");
        if (sscanf(at, "HTTP/1.1 %d", &status) != 1 || field == NULL || end == NULL || sscanf(field, "Content-Length: %zu", &length) != 1)
            exit(1);
        const char *body = end + 4;
        at = body + length;
        printf("%d %.*s\n", status, (int)(length > 0 && at[-1] == '\n' ? length - 1 : length), body);
    }
}

int main(void) {
    char messages[4096];
    size_t length = write_messages(messages, sizeof messages);
    uint8_t nothing[1];
    size_t count = ftd_answer((const uint8_t *)messages, length, nothing, 0);
    char *answers = count == FTD_NO_ANSWERS ? NULL : malloc(count + 1);
    if (answers == NULL || ftd_answer((const uint8_t *)messages, length, (uint8_t *)answers, count) != count) {
        printf("no-memory\n");
        return 1;
    }
    answers[count] = '\0';
    print_answers(answers);
    free(answers);
    return 0;
}
