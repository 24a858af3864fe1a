// The step of a speed controller: twice the error, at most 100, and a brake where the speed is far above the target.
#include <stdint.h>

int16_t speed(int8_t target, int8_t actual) {
    int16_t error = target - actual;
    if (error > 50)
        return 100;
    if (error < -50)
        return actual > 90 ? -120 : -100;
    return error * 2;
}
