#ifndef FAULT_H
#define FAULT_H

#include <stdint.h>

/* A rule that a command breaks: document 01's number and the word, or number 0 if it breaks none. */
typedef struct {
    uint32_t number;
    uint32_t word;
} fault;

static const fault no_fault = {0, 0};

static inline fault fault_at(uint32_t number, uint32_t word)
{
    return (fault){number, word};
}

#endif
