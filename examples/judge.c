/* Judges the sheet on standard input. Status: 0 complete, 1 a survivor, 2 refused, 3 a failed read or write. */
#include <stdio.h>

#include "ranthelo.h"

static void print_fields(const char *name, const uint8_t *numbers, size_t count)
{
    printf("%s", name);
    for (size_t i = 0; i < count; i++)
        printf(" %d", numbers[i]);
    printf("\n");
}

static int judge(const uint8_t *sheet, size_t length)
{
    uint8_t board[RANTHELO_MOST_OPEN_PAIRS], sequence[RANTHELO_MOST_SEQUENCE];
    size_t summary[RANTHELO_READ_ANSWER], verdict[RANTHELO_JUDGE_ANSWER];

    ranthelo_read(sheet, length, summary);
    ranthelo_judge(sheet, length, board, sizeof board, sequence, sizeof sequence, verdict);
    if (verdict[RANTHELO_NUMBER] != RANTHELO_ACCEPTED) {
        printf("refused %zu at %zu\n", verdict[RANTHELO_NUMBER], verdict[RANTHELO_PLACE]);
        return 2;
    }
    if (!verdict[RANTHELO_JUDGE_SURVIVES]) {
        printf("complete\n");
        return 0;
    }
    printf("survivor\n");
    print_fields("board", board, summary[RANTHELO_READ_OPEN_PAIRS]);
    print_fields("press", sequence, verdict[RANTHELO_JUDGE_LENGTH]);
    return 1;
}

int main(void)
{
    static uint8_t sheet[RANTHELO_MOST_BYTES + 1]; /* one more tells a sheet that is too long */
    size_t length = fread(sheet, 1, sizeof sheet, stdin);
    int status;

    if (ferror(stdin)) {
        fprintf(stderr, "judge: can't read standard input\n");
        return 3;
    }
    status = judge(sheet, length);
    if (fflush(stdout) != 0) {
        fprintf(stderr, "judge: can't write standard output\n");
        return 3;
    }
    return status;
}
