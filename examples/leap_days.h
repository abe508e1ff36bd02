/* The leap days of GVAR's years, for these examples: the days whose last minute had 61 seconds, each as year x 1000 + day of the year. They
 * are lent as `leap_days, LEAP_DAYS`. A program that is to run for years takes its list from a file, where new days are added. */
#ifndef LEAP_DAYS_H
#define LEAP_DAYS_H

#include <stdint.h>

static const uint32_t leap_days[] = {1994181, 1995365, 1997181, 1998365, 2005365, 2008366, 2012182, 2015181, 2016366};

enum { LEAP_DAYS = sizeof leap_days / sizeof *leap_days };

#endif
