/* mps2-an385, an386 and an500: code from 0, memory from 0x20000000. */
MEMORY {
    CODE (rx) : ORIGIN = 0x00000000, LENGTH = 1M
    RAM (rwx) : ORIGIN = 0x20000000, LENGTH = 1M
}
