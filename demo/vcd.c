/* The waveform of SCL and SDA as a value change dump. */
#include "sim.h"

#include <stdio.h>
#include <stdlib.h>

static FILE *file;
static int old_scl = -1, old_sda = -1;
static uint64_t last_time;

static void change(char code, int *old, int value)
{
    if (*old != value)
        fprintf(file, "%d%c\n", value, code);
    *old = value;
}

void vcd_lines(uint64_t time, int scl, int sda)
{
    if (scl == old_scl && sda == old_sda)
        return;
    if (time < last_time) /* a reset cut a piece short */
        time = last_time;
    if (time != last_time)
        fprintf(file, "#%llu\n", (unsigned long long)time);
    last_time = time;
    change('c', &old_scl, scl);
    change('d', &old_sda, sda);
}

void vcd_open(const char *path)
{
    file = fopen(path, "w");
    if (!file) {
        perror(path);
        exit(1);
    }
    fprintf(file, "$timescale 1 ns $end\n$scope module i2c $end\n$var wire 1 c scl $end\n$var wire 1 d sda $end\n"
                  "$upscope $end\n$enddefinitions $end\n#0\n$dumpvars\n");
    vcd_lines(0, 1, 1);
    fprintf(file, "$end\n");
}

void vcd_close(uint64_t time)
{
    fprintf(file, "#%llu\n", (unsigned long long)time);
    fclose(file);
}
