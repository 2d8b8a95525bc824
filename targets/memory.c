/*
 * memcpy, memmove and memset where there is no C library, and the names by which Arm's compilers call them.
 * Whole words are moved where both ends are aligned. Link librobequarry_memory.a only where nothing else provides these functions.
 */
#ifdef __arm__
/* No enum is passed to these functions, so they link with either size of enums: Tag_ABI_enum_size is "not used". */
__asm__(".eabi_attribute 26, 0");
#endif

typedef __SIZE_TYPE__ size;
typedef __UINTPTR_TYPE__ address;
typedef __UINT8_TYPE__ byte;
/* A word may stand for bytes of any other type. */
typedef __UINT32_TYPE__ __attribute__((may_alias)) word;

static int both_aligned(const void *a, const void *b) {
    return (((address)a | (address)b) & 3) == 0;
}

static void forward(byte *to, const byte *from, size n) {
    if (both_aligned(to, from)) {
        for (; n >= 4; n -= 4, to += 4, from += 4) *(word *)to = *(const word *)from;
    }
    for (; n > 0; n--) *to++ = *from++;
}

static void backward(byte *to, const byte *from, size n) {
    to += n;
    from += n;
    if (both_aligned(to, from)) {
        for (; n >= 4; n -= 4) *(word *)(to -= 4) = *(const word *)(from -= 4);
    }
    for (; n > 0; n--) *--to = *--from;
}

static void fill(byte *to, size n, byte value) {
    const word four = 0x01010101u * value;
    for (; n > 0 && ((address)to & 3) != 0; n--) *to++ = value;
    for (; n >= 32; n -= 32, to += 32) {
        word *words = (word *)to;
        words[0] = four, words[1] = four, words[2] = four, words[3] = four;
        words[4] = four, words[5] = four, words[6] = four, words[7] = four;
    }
    for (; n >= 4; n -= 4, to += 4) *(word *)to = four;
    for (; n > 0; n--) *to++ = value;
}

void *memcpy(void *to, const void *from, size n) {
    forward(to, from, n);
    return to;
}

/* A copy that goes forward is right unless the target starts inside the source. */
void *memmove(void *to, const void *from, size n) {
    if ((address)to - (address)from >= n) {
        forward(to, from, n);
    } else {
        backward(to, from, n);
    }
    return to;
}

void *memset(void *to, int value, size n) {
    fill(to, n, (byte)value);
    return to;
}

#ifdef __arm__

/* The run-time ABI for the Arm architecture, 4.3.4: the value comes last, and nothing is returned. */
void __aeabi_memcpy(void *to, const void *from, size n) { forward(to, from, n); }
void __aeabi_memcpy4(void *to, const void *from, size n) { forward(to, from, n); }
void __aeabi_memcpy8(void *to, const void *from, size n) { forward(to, from, n); }
void __aeabi_memmove(void *to, const void *from, size n) { memmove(to, from, n); }
void __aeabi_memmove4(void *to, const void *from, size n) { memmove(to, from, n); }
void __aeabi_memmove8(void *to, const void *from, size n) { memmove(to, from, n); }
void __aeabi_memset(void *to, size n, int value) { fill(to, n, (byte)value); }
void __aeabi_memset4(void *to, size n, int value) { fill(to, n, (byte)value); }
void __aeabi_memset8(void *to, size n, int value) { fill(to, n, (byte)value); }
void __aeabi_memclr(void *to, size n) { fill(to, n, 0); }
void __aeabi_memclr4(void *to, size n) { fill(to, n, 0); }
void __aeabi_memclr8(void *to, size n) { fill(to, n, 0); }

#endif
