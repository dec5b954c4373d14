/* Calls the check from C through the header. The last line printed is 'N passed, M failed'. */
#include "../cellprism.h"

#include <stdio.h>

#define ROW_BYTES 65536
#define ONE_COLUMN 2048
#define OUTPUT_COLUMN 2049
#define RS1_BIT_8 8
#define RD_BIT_8 136
#define FLAG_HALT 773

static uint8_t row[ROW_BYTES + 1];
static int passed;
static int failed;

static void expect(const char *what, size_t len, uint32_t right)
{
    uint32_t answer = cellprism_check_row(row, len);
    if (answer == right) {
        passed++;
        printf("ok    %s\n", what);
    } else {
        failed++;
        printf("FAIL  %s: %08lx, right %08lx\n", what, (unsigned long)answer, (unsigned long)right);
    }
}

static void set(int column, int byte, uint8_t value)
{
    row[16 * column + byte] = value;
}

int main(void)
{
    expect("a row of zeros", ROW_BYTES, 0x00000202);
    expect("no byte", 0, 0x80000002);
    expect("one byte", 1, 0x80000002);
    expect("one byte too few", ROW_BYTES - 1, 0x80000002);
    expect("one byte too many", ROW_BYTES + 1, 0x80000002);

    set(ONE_COLUMN, 0, 1);
    expect("only the one column 1", ROW_BYTES, 0x40000107);
    set(ONE_COLUMN, 0, 0);

    set(FLAG_HALT, 0, 1);
    set(OUTPUT_COLUMN, 15, 0x80);
    expect("halt with an output that is not RD", ROW_BYTES, 0x60000003);
    set(OUTPUT_COLUMN, 15, 0);
    set(OUTPUT_COLUMN, 1, 1);
    set(RS1_BIT_8, 0, 1);
    set(RD_BIT_8, 0, 1);
    expect("halt with RS1, RD and the output 256", ROW_BYTES, 0x00000202);

    printf("%d passed, %d failed\n", passed, failed);
    return failed != 0;
}
