// The header in C++: the call is found by its C name, and refuses a place of no bytes.
#include <channel.h>

int main() { return channel_plan(0, 0, 0, 0) == CHANNEL_PLACE_TOO_SMALL ? 0 : 1; }
