/* The sensor and the relay that gateway.c calls. Write a file in place of device.c for yours. */
#ifndef DEVICE_H
#define DEVICE_H

#include <stdbool.h>
#include <stdint.h>

/* Returns the sensor's value at `now`, in ms since the start. It is called once per iteration. */
uint16_t read_sensor(uint64_t now);

/* Switches the relay, each time that a program answers or notifies `on` or `off`. */
void set_relay(bool on);

#endif
