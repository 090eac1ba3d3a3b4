/* What the C tests use of the C library on x86-64 Linux, declared here: the kit has the library and no headers. */
#ifndef LICHENOAR_LIBC_H
#define LICHENOAR_LIBC_H

typedef unsigned char uint8_t;
typedef unsigned int uint32_t;
typedef short int16_t;
typedef unsigned long uint64_t;
typedef long int64_t;
typedef unsigned long size_t;
typedef struct FILE FILE;

int printf(const char *, ...);
int snprintf(char *, size_t, const char *, ...);
int sscanf(const char *, const char *, ...);
FILE *fopen(const char *, const char *);
char *fgets(char *, int, FILE *);
size_t fread(void *, size_t, size_t, FILE *);
int fgetc(FILE *);
int fclose(FILE *);
int strcmp(const char *, const char *);
void *memcpy(void *, const void *, size_t);

static inline double value_of(uint64_t b) {
    double x;
    memcpy(&x, &b, 8);
    return x;
}

static inline uint64_t bits_of(double x) {
    uint64_t b;
    memcpy(&b, &x, 8);
    return b;
}

#endif
