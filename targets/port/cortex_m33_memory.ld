/* mps2-an505: the processor starts in its secure state, and so code and memory are those of the secure addresses. */
MEMORY {
    CODE (rx) : ORIGIN = 0x10000000, LENGTH = 1M
    RAM (rwx) : ORIGIN = 0x38000000, LENGTH = 1M
}
