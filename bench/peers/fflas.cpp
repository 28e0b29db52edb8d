// The product, the solution or the factors of a job of bench/compare.py by FFLAS-FFPACK: fflas TASK < JOB
#include <givaro/modular.h>
#include <fflas-ffpack/fflas-ffpack.h>

#include <vector>

#include "text.h"

typedef Givaro::Modular<double> Field;

static Field::Element_ptr taken(const Field &field, const Matrix &from)
{
    Field::Element_ptr to = FFLAS::fflas_new(field, from.rows, from.cols);
    for (size_t i = 0; i < from.rows * from.cols; ++i)
        to[i] = double(from.entries[i]); // below the modulus, and so exact
    return to;
}

static void give(const char *name, const double *from, Matrix room)
{
    for (size_t i = 0; i < room.rows * room.cols; ++i)
        room.entries[i] = uint64_t(from[i]);
    print_matrix(name, room);
}

int main(int count, char **words)
{
    if (count != 2)
        fail("fflas product|solve|lu < JOB");
    read_input();
    const uint64_t modulus = modulus_of_input();
    if (modulus >= uint64_t(1) << 26)
        return 3; // residues of this field are doubles whose products have to be exact
    const Field field{double(modulus)};
    const Matrix first = matrix_of_input("A");
    const size_t n = first.rows;
    Field::Element_ptr a = taken(field, first);
    if (!strcmp(words[1], "lu")) {
        std::vector<size_t> rows(n + 1), cols(n + 1);
        const double begin = now();
        FFPACK::PLUQ(field, FFLAS::FflasNonUnit, n, n, a, n, rows.data(), cols.data());
        tell_seconds(begin);
        give("A", a, first);
        return 0;
    }
    const bool product = !strcmp(words[1], "product");
    const Matrix second = matrix_of_input(product ? "B" : "X");
    Field::Element_ptr b = taken(field, second);
    if (product) {
        Field::Element_ptr c = FFLAS::fflas_new(field, n, second.cols);
        const double begin = now();
        FFLAS::fgemm(field, FFLAS::FflasNoTrans, FFLAS::FflasNoTrans, n, second.cols, first.cols, field.one, a, first.cols,
                     b, second.cols, field.zero, c, second.cols);
        tell_seconds(begin);
        give("P", c, second);
        return 0;
    }
    int info = 0;
    const double begin = now();
    FFPACK::fgesv(field, FFLAS::FflasLeft, n, second.cols, a, n, b, second.cols, &info);
    tell_seconds(begin);
    if (info)
        fail("the matrix has no inverse");
    give("X", b, second);
    return 0;
}
