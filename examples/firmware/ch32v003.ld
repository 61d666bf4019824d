MEMORY
{
    flash (rx) : ORIGIN = 0x08000000, LENGTH = 16K
    ram (rw) : ORIGIN = 0x20000000, LENGTH = 2K
}
INCLUDE sections.ld
