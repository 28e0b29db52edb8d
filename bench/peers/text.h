/* The matrices of a job's text, and a matrix printed as flame prints it. Read by C and by C++. */
#ifndef TEXT_H
#define TEXT_H

#include <ctype.h>
#include <stdint.h>
#include <stdio.h>
#include <stdlib.h>
#include <string.h>
#include <time.h>

typedef struct {
    size_t rows, cols;
    uint64_t *entries; /* row by row */
} Matrix;

static char *text_of_input;

static void fail(const char *sentence)
{
    fprintf(stderr, "%s\n", sentence);
    exit(1);
}

/* Reads standard input whole. */
static void read_input(void)
{
    size_t room = 1 << 20, size = 0, got;
    text_of_input = (char *)malloc(room + 1);
    while (text_of_input && (got = fread(text_of_input + size, 1, room - size, stdin)) > 0) {
        size += got;
        if (size == room)
            text_of_input = (char *)realloc(text_of_input, (room *= 2) + 1);
    }
    if (!text_of_input)
        fail("no memory");
    text_of_input[size] = 0;
}

static uint64_t modulus_of_input(void)
{
    const char *line = strstr(text_of_input, "\nmodulus ");
    if (!line)
        fail("no modulus");
    return strtoull(line + 9, NULL, 10);
}

static uint64_t next_number(const char **at)
{
    uint64_t number = 0;
    while (isspace((unsigned char)**at))
        ++*at;
    while (isdigit((unsigned char)**at))
        number = 10 * number + (uint64_t)(*(*at)++ - '0');
    return number;
}

/* The matrix of this name. */
static Matrix matrix_of_input(const char *name)
{
    char head[64];
    const char *at;
    Matrix matrix;
    size_t i;
    snprintf(head, sizeof head, "\nmatrix %s ", name);
    at = strstr(text_of_input, head);
    if (!at)
        fail("no such matrix");
    at += strlen(head);
    matrix.rows = (size_t)next_number(&at);
    matrix.cols = (size_t)next_number(&at);
    matrix.entries = (uint64_t *)malloc((matrix.rows * matrix.cols + 1) * sizeof(uint64_t));
    if (!matrix.entries)
        fail("no memory");
    for (i = 0; i < matrix.rows * matrix.cols; ++i)
        matrix.entries[i] = next_number(&at);
    return matrix;
}

static void print_matrix(const char *name, Matrix matrix)
{
    size_t i, j;
    printf("matrix %s %zu %zu\n", name, matrix.rows, matrix.cols);
    for (i = 0; i < matrix.rows; ++i)
        for (j = 0; j < matrix.cols; ++j)
            printf("%llu%c", (unsigned long long)matrix.entries[i * matrix.cols + j], j + 1 < matrix.cols ? ' ' : '\n');
    printf("end\n");
}

static double now(void)
{
    struct timespec time;
    clock_gettime(CLOCK_MONOTONIC, &time);
    return (double)time.tv_sec + 1e-9 * (double)time.tv_nsec;
}

/* Tells the seconds that computing took, without reading and printing, on standard error. */
static void tell_seconds(double begin)
{
    fprintf(stderr, "%.9f\n", now() - begin);
}

#endif
