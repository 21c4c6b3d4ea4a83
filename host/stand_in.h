/* Compiled before the plain sources, this makes of them a stand-in for the library: the test is tried against it, and against
   damaged copies of it. */
#define plain_book_read pc_book_read
#define plain_book_write pc_book_write
#define plain_class pc_class
#define plain_dash pc_dash
#define plain_frame_read pc_frame_read
#define plain_frame_pack pc_frame_pack
#define plain_spread pc_spread
#define plain_fault_sum pc_fault_sum
#define plain_power_step pc_power_step
#define plain_power_step_by pc_power_step_by
#define plain_sleep_start pc_sleep_start
#define plain_sleep_watch pc_sleep_watch
#define plain_frame_read_tested stand_in_frame_read_tested
#define plain_routes_refusal stand_in_routes_refusal
#define plain_messages_taken stand_in_messages_taken
#define plain_routes_taken stand_in_routes_taken
