/* What the C tests share: a check that counts its failures, numbers of four bytes, what their profiles have in common. */
#include <stdint.h>
#include <stdio.h>
#include <string.h>

static int failures;

static void check(int holds, const char *what)
{
    if (!holds) {
        printf("FAILED: %s\n", what);
        failures++;
    }
}

static void put_four(uint8_t *at, uint32_t n)
{
    at[0] = (uint8_t)(n >> 24);
    at[1] = (uint8_t)(n >> 16);
    at[2] = (uint8_t)(n >> 8);
    at[3] = (uint8_t)n;
}

static uint32_t four(const uint8_t *at)
{
    return (uint32_t)at[0] << 24 | (uint32_t)at[1] << 16 | (uint32_t)at[2] << 8 | at[3];
}

/* A user area and a config area, which the caller gives addresses and units; where they stand in the profile is left in `user` and `config`. */
static void two_areas(uint8_t *profile, uint8_t **user, uint8_t **config)
{
    *user = profile + INDRAVECK_PROFILE_AT_AREAS;
    *config = *user + INDRAVECK_AREA_BYTES;
    memset(profile, 0, INDRAVECK_PROFILE_BYTES);
    profile[INDRAVECK_PROFILE_AT_NOA] = 2;
    profile[INDRAVECK_PROFILE_AT_TYP] = 1;
    put_four(profile + INDRAVECK_PROFILE_AT_SCI, 60000000);
    put_four(profile + INDRAVECK_PROFILE_AT_RMB, 4000000);
    (*user)[INDRAVECK_AREA_AT_KOA] = INDRAVECK_KIND_USER;
    (*config)[INDRAVECK_AREA_AT_KOA] = INDRAVECK_KIND_CONFIG;
}
