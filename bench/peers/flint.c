/* The product, the solution or the factors of a job of bench/compare.py by FLINT: flint TASK < JOB */
#include <flint/flint.h>
#include <flint/nmod_mat.h>

#include "text.h"

static void take(nmod_mat_t to, Matrix from, uint64_t modulus)
{
    size_t i, j;
    nmod_mat_init(to, (slong)from.rows, (slong)from.cols, (mp_limb_t)modulus);
    for (i = 0; i < from.rows; ++i)
        for (j = 0; j < from.cols; ++j)
            nmod_mat_entry(to, i, j) = (mp_limb_t)from.entries[i * from.cols + j];
}

static void give(const char *name, nmod_mat_t from, Matrix room)
{
    size_t i, j;
    for (i = 0; i < room.rows; ++i)
        for (j = 0; j < room.cols; ++j)
            room.entries[i * room.cols + j] = nmod_mat_entry(from, i, j);
    print_matrix(name, room);
}

int main(int count, char **words)
{
    Matrix first, second;
    nmod_mat_t a, b, c;
    uint64_t modulus;
    double begin;
    if (count != 2)
        fail("flint product|solve|lu < JOB");
    read_input();
    modulus = modulus_of_input();
    first = matrix_of_input("A");
    take(a, first, modulus);
    if (!strcmp(words[1], "lu")) {
        slong *order = (slong *)malloc((first.rows + 1) * sizeof(slong));
        begin = now();
        nmod_mat_lu(order, a, 0);
        tell_seconds(begin);
        give("A", a, first);
        return 0;
    }
    second = matrix_of_input(strcmp(words[1], "solve") ? "B" : "X");
    take(b, second, modulus);
    nmod_mat_init(c, (slong)first.rows, (slong)second.cols, (mp_limb_t)modulus);
    begin = now();
    if (!strcmp(words[1], "product"))
        nmod_mat_mul(c, a, b);
    else if (!nmod_mat_solve(c, a, b))
        fail("the matrix has no inverse");
    tell_seconds(begin);
    give(strcmp(words[1], "solve") ? "P" : "X", c, second);
    return 0;
}
