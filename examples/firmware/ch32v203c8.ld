MEMORY
{
    flash (rx) : ORIGIN = 0x08000000, LENGTH = 64K
    ram (rw) : ORIGIN = 0x20000000, LENGTH = 20K
}
INCLUDE sections.ld
