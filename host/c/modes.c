/* Whether an answer depends on the processor's float mode: each call is made in every rounding, with denormal results flushed to zero or not and with
   denormal operands read as zero or not. Ends with 0 where all answers are those of document 01, readings as two ends. */
#include <stdio.h>
#include <string.h>

#include "ylhovesko.h"

/* the control register of x86-64's floats: all exceptions masked, as a process starts, and the bits that are changed */
enum { USUAL = 0x1f80, OPERANDS_TO_ZERO = 0x40, ROUNDING = 0x2000, RESULTS_TO_ZERO = 0x8000, REFUSED = -1 };

/* the gases whose readings are tried, by the numbers of refusal 12 */
enum { CO = 2, NMHC = 5 };

static void set_mode(uint32_t mode)
{
    __asm__ volatile("ldmxcsr %0" : : "m"(mode) : "memory");
}

struct reading_case {
    uint32_t kind;
    uint32_t bits;
    long lower; /* in units of 1/256 ppm, or REFUSED */
    long upper;
};

static const struct reading_case cases[] = {
    /* zeros, and the denormals with each sign */
    {YLHOVESKO_PPM, 0x00000000, 0, 0},
    {YLHOVESKO_PPM, 0x80000000, 0, 0},
    {YLHOVESKO_PERCENT, 0x80000000, 0, 0},
    {YLHOVESKO_PPM, 0x00000001, 0, 1},
    {YLHOVESKO_PERCENT, 0x007fffff, 0, 1},
    {YLHOVESKO_PPM, 0x80000001, REFUSED, REFUSED},
    {YLHOVESKO_PERCENT, 0x80000001, REFUSED, REFUSED},
    {YLHOVESKO_PPM, 0x80400000, REFUSED, REFUSED},
    {YLHOVESKO_PPM, 0x807fffff, REFUSED, REFUSED},
    {YLHOVESKO_PERCENT, 0x807fffff, REFUSED, REFUSED},
    {YLHOVESKO_PPM, 0x80800000, REFUSED, REFUSED},
    /* at a whole number of units, and on both sides of it */
    {YLHOVESKO_PPM, 0x3b7fffff, 0, 1},
    {YLHOVESKO_PPM, 0x3b800000, 1, 1},
    {YLHOVESKO_PPM, 0x3b800001, 1, 2},
    {YLHOVESKO_PERCENT, 0x3f7fffff, 2559999, 2560000},
    {YLHOVESKO_PERCENT, 0x3f800000, 2560000, 2560000},
    {YLHOVESKO_PERCENT, 0x3f800001, 2560000, 2560001},
    /* around a half, where the nearest unit would change and the ends do not */
    {YLHOVESKO_PPM, 0x3affffff, 0, 1},
    {YLHOVESKO_PPM, 0x3b000000, 0, 1},
    {YLHOVESKO_PERCENT, 0x3451b717, 0, 1},
    {YLHOVESKO_PERCENT, 0x3451b718, 0, 1},
    {YLHOVESKO_PERCENT, 0x39000000, 312, 313},
    /* the limit, what is infinite, what is not a number */
    {YLHOVESKO_PPM, 0x47800000, 16777216, 16777216},
    {YLHOVESKO_PPM, 0x47800001, REFUSED, REFUSED},
    {YLHOVESKO_PERCENT, 0x40d1b717, 16777215, 16777216},
    {YLHOVESKO_PERCENT, 0x40d1b718, REFUSED, REFUSED},
    {YLHOVESKO_PPM, 0x7f800000, REFUSED, REFUSED},
    {YLHOVESKO_PPM, 0x7f800001, REFUSED, REFUSED},
    {YLHOVESKO_PERCENT, 0xffc01234, REFUSED, REFUSED},
};

static ylhovesko_bag_sheet sheet;

/*
 * 256 cubic metres at the reference state and 1,000 mg per cubic metre: a microgram for each unit of 1/256 ppm. By these efficiencies the fifth gas is
 * HC, of which there is none, less what was read behind the cutter.
 */
static void fill_sheet(void)
{
    const ylhovesko_densities density = {1000, 1000, 1000, 1000, 1000};
    const ylhovesko_triple triple = {200, 0, 0};
    const ylhovesko_fuel fuel = {1155, 866, 429, 273, 750};

    sheet.class_number = 1;
    sheet.parts = 2;
    sheet.triple = triple;
    sheet.fuel = fuel;
    sheet.efficiencies.ethane = 1000;
    for (int i = 0; i < 2; i++) {
        sheet.part[i].pump = 2560;
        sheet.part[i].revolutions = 100000;
        sheet.part[i].barometer = 101325;
        sheet.part[i].temperature = 200;
        sheet.part[i].distance = 1000;
        sheet.part[i].density = density;
    }
}

static int is_told(const struct reading_case *c, uint32_t gas, const ylhovesko_test_result *r)
{
    const ylhovesko_gases *mass = &r->part[1].mass;

    if (c->lower == REFUSED)
        return r->outcome.number == 12 && r->outcome.at == 2 && r->outcome.within == gas && r->outcome.side == 1;
    if (r->outcome.number != 0)
        return 0;
    if (gas == CO)
        return r->has_nmhc == 0 && mass->co.lower == c->lower && mass->co.upper == c->upper;
    return r->has_nmhc == 1 && mass->nmhc.lower == -c->upper && mass->nmhc.upper == -c->lower;
}

static int wrong_of(const struct reading_case *c, uint32_t gas, uint32_t mode)
{
    const ylhovesko_test_result usual = ylhovesko_result(sheet);
    ylhovesko_test_result told;

    set_mode(mode);
    told = ylhovesko_result(sheet);
    set_mode(USUAL);
    if (memcmp(&told, &usual, sizeof told) == 0 && is_told(c, gas, &told))
        return 0;
    printf("mode %04x: %08x of kind %u has another answer for gas %u\n", (unsigned)mode, (unsigned)c->bits, (unsigned)c->kind, (unsigned)gas);
    return 1;
}

/* each reading as that of CO where no cutter is fitted, and as that behind the cutter */
static int wrong_in(uint32_t mode)
{
    const ylhovesko_reading none = {YLHOVESKO_PPM, 0}, not_fitted = {YLHOVESKO_NOT_FITTED, 0};
    ylhovesko_bag *bag = &sheet.part[1].bag;
    int wrong = 0;

    for (size_t i = 0; i < sizeof cases / sizeof cases[0]; i++) {
        const ylhovesko_reading reading = {cases[i].kind, cases[i].bits};

        bag->co = reading;
        bag->cutter = not_fitted;
        wrong |= wrong_of(&cases[i], CO, mode);
        bag->co = none;
        bag->cutter = reading;
        wrong |= wrong_of(&cases[i], NMHC, mode);
    }
    return wrong;
}

int main(void)
{
    int wrong = 0;

    fill_sheet();
    for (uint32_t rounding = 0; rounding < 4; rounding++)
        for (int zeros = 0; zeros < 4; zeros++)
            wrong |= wrong_in(USUAL | rounding * ROUNDING | (zeros & 1 ? OPERANDS_TO_ZERO : 0) | (zeros & 2 ? RESULTS_TO_ZERO : 0));
    if (!wrong)
        puts("no answer depends on the float mode");
    return wrong;
}
