// The product or the solution of a job of bench/compare.py by NTL, which has no LU: ntl TASK < JOB
#include <NTL/mat_lzz_p.h>
#include <NTL/vec_lzz_p.h>

#include "text.h"

static NTL::mat_zz_p taken(const Matrix &from)
{
    NTL::mat_zz_p to;
    to.SetDims(long(from.rows), long(from.cols));
    for (size_t i = 0; i < from.rows; ++i)
        for (size_t j = 0; j < from.cols; ++j)
            to[long(i)][long(j)] = NTL::to_zz_p(long(from.entries[i * from.cols + j]));
    return to;
}

int main(int count, char **words)
{
    if (count != 2)
        fail("ntl product|solve < JOB");
    const bool product = !strcmp(words[1], "product");
    if (!product && strcmp(words[1], "solve"))
        return 3; // not offered
    read_input();
    NTL::zz_p::init(long(modulus_of_input()));
    NTL::mat_zz_p a = taken(matrix_of_input("A"));
    Matrix second = matrix_of_input(product ? "B" : "X");
    NTL::mat_zz_p b = taken(second);
    if (product) {
        NTL::mat_zz_p c;
        const double begin = now();
        NTL::mul(c, a, b);
        tell_seconds(begin);
        for (size_t i = 0; i < second.rows; ++i)
            for (size_t j = 0; j < second.cols; ++j)
                second.entries[i * second.cols + j] = uint64_t(NTL::rep(c[long(i)][long(j)]));
        print_matrix("P", second);
        return 0;
    }
    // x * transpose(A) = b says the same as A * x = b, and this call is in all versions.
    NTL::mat_zz_p turned;
    NTL::vec_zz_p x, right;
    right.SetLength(long(second.rows));
    for (size_t i = 0; i < second.rows; ++i)
        right[long(i)] = b[long(i)][0];
    NTL::zz_p determinant;
    const double begin = now();
    NTL::transpose(turned, a);
    NTL::solve(determinant, x, turned, right);
    tell_seconds(begin);
    if (NTL::IsZero(determinant))
        fail("the matrix has no inverse");
    for (size_t i = 0; i < second.rows; ++i)
        second.entries[i] = uint64_t(NTL::rep(x[long(i)]));
    print_matrix("X", second);
    return 0;
}
