/* A simulated device: its temperature rises by 0.1 degrees each second, and its relay prints. */
#include <stdio.h>

#include "device.h"

uint16_t read_sensor(uint64_t now)
{
    return (uint16_t)(150 + now / 1000);
}

void set_relay(bool on)
{
    static int is_on = -1;
    if (on != is_on)
        printf("relay %s\n", on ? "on" : "off");
    is_on = on;
}
