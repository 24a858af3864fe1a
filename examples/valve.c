// Whether a tank's valve is open: opened below 20 percent, closed above 80, else as it was. A level above 100 is a
// fault, and the caller promises that there is none.
#include <stdint.h>

uint8_t valve(uint8_t level, uint8_t was_open) {
    if (level > 100)
        return 2;
    if (level < 20)
        return 1;
    if (level > 80)
        return 0;
    return was_open & 1;
}
