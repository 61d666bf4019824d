/* The vector table and the start. The table is the beginning of the flash: the chip starts at its first jump. mtvec in mode 1 has a jump for each
 * number, 4 bytes apart: 2 is NMI, 3 a fault (an exception has this number on these cores), 12 SysTick; from 16 on stand the peripherals. */
    .section .vectors, "ax"
    .option push
    .option norvc
    .globl vectors
vectors:
    j start
    j fault
    j nmi
    .rept 9
    j fault
    .endr
    j systick
    .rept 3
    j fault
    .endr
    .rept 48
    j interrupt
    .endr
    .option pop

    .weak nmi
    .weak systick
    .weak interrupt
    .weak fault
nmi:
systick:
interrupt:
fault:
    j fault

    .section .text.start, "ax"
start:
    /* the chip starts at address 0, where the flash is seen too: on to the flash's own address */
    lui t0, %hi(home)
    jr %lo(home)(t0)
home:
    .option push
    .option norelax
    la gp, __global_pointer$
    .option pop
    la sp, stack_top
    la t0, vectors + 1
    .option push
    .option arch, +zicsr
    csrw mtvec, t0
    .option pop
    /* initialised data from flash to RAM */
    la a0, data_in_flash
    la a1, data_start
    la a2, data_end
1:  bgeu a1, a2, 2f
    lw a3, 0(a0)
    sw a3, 0(a1)
    addi a0, a0, 4
    addi a1, a1, 4
    j 1b
    /* the rest of RAM's variables to 0 */
2:  la a1, bss_start
    la a2, bss_end
3:  bgeu a1, a2, 4f
    sw zero, 0(a1)
    addi a1, a1, 4
    j 3b
4:  call main
5:  j 5b
