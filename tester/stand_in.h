/* Compiled before the plain source, this makes of it a stand-in for the proved call: the test is tried against it, and against damaged
   copies of it. */
#define plain_charge_step pct_charge_step
