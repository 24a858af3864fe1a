// Bits of an alarm: 2 too hot, 1 too cold, 4 the door is open. No temperature is both.
#include <stdint.h>

uint8_t alarm(uint8_t temperature, uint8_t door) {
    uint8_t level = 0;
    if (temperature > 200)
        level += 2;
    if (temperature < 50)
        level += 1;
    if (door != 0)
        level |= 4;
    return level;
}
