// What onlayer tells of a run, on standard error or in the file of --log.
#pragma once
#include "world.h"

void report_now(World &world);
void report_deadlock(World &world);
void report_end(World &world, unsigned long calls_at_end);
