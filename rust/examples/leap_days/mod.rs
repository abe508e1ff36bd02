//! The leap days of GVAR's years, for these examples: the days whose last minute had 61 seconds. A program that is to
//! run for years takes its list from a file, where new days are added.

use rahmisve::LeapDay;

pub const LEAP_DAYS: [LeapDay; 9] = [
    LeapDay::new(1994, 181),
    LeapDay::new(1995, 365),
    LeapDay::new(1997, 181),
    LeapDay::new(1998, 365),
    LeapDay::new(2005, 365),
    LeapDay::new(2008, 366),
    LeapDay::new(2012, 182),
    LeapDay::new(2015, 181),
    LeapDay::new(2016, 366),
];
