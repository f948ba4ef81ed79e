// Measures: a product of two matrices of 40 by 40 numbers of 64 bits.
#include "measure.h"

#define SIZE 40

static u64 left[SIZE][SIZE], right[SIZE][SIZE], product[SIZE][SIZE];

static void fill(u64 matrix[SIZE][SIZE], u64 *state)
{
    for (u32 row = 0; row < SIZE; row++)
        for (u32 column = 0; column < SIZE; column++)
            matrix[row][column] = next_number(state);
}

static void multiply(void)
{
    for (u32 row = 0; row < SIZE; row++)
        for (u32 column = 0; column < SIZE; column++) {
            u64 sum = 0;
            for (u32 k = 0; k < SIZE; k++)
                sum += left[row][k] * right[k][column];
            product[row][column] = sum;
        }
}

static u64 round_sum(u64 round)
{
    u64 state = round, sum = 0;
    fill(left, &state);
    fill(right, &state);
    multiply();
    for (u32 row = 0; row < SIZE; row++)
        for (u32 column = 0; column < SIZE; column++)
            sum = sum_with(sum, product[row][column]);
    return sum;
}

void run(u64 hart)
{
    (void)hart;
    u64 sum = 0;
    for (u64 round = 0; round < rounds; round++)
        sum = sum_with(sum, round_sum(round));
    put_sum("matmul", sum);
}
