#include "serial.h"

#include "status.h"

enum { PORT = 0x3f8, DATA = PORT, INTERRUPTS, FIFO, LINE_CONTROL, MODEM_CONTROL, LINE_STATUS };
enum { DIVISOR_LOW = DATA, DIVISOR_HIGH = INTERRUPTS, DIVISOR_ACCESS = 0x80, EIGHT_BITS = 3, CAN_TAKE = 0x20 };

static void out(uint16_t port, uint8_t byte)
{
    __asm__ volatile("outb %0, %1" : : "a"(byte), "Nd"(port));
}

static uint8_t in(uint16_t port)
{
    uint8_t byte;
    __asm__ volatile("inb %1, %0" : "=a"(byte) : "Nd"(port));
    return byte;
}

void open_serial(void)
{
    out(INTERRUPTS, 0);
    out(LINE_CONTROL, DIVISOR_ACCESS);
    out(DIVISOR_LOW, 1);
    out(DIVISOR_HIGH, 0);
    out(LINE_CONTROL, EIGHT_BITS);
    out(FIFO, 0);
    out(MODEM_CONTROL, 3);
}

static void say_character(char character)
{
    while (!(in(LINE_STATUS) & CAN_TAKE)) {
    }
    out(DATA, (uint8_t)character);
}

void say(const char *text)
{
    for (; *text; text++)
        say_character(*text);
}

static void say_digits(uint64_t number, uint64_t base)
{
    if (number >= base)
        say_digits(number / base, base);
    say_character("0123456789abcdef"[number % base]);
}

void say_number(uint64_t number)
{
    say_digits(number, 10);
}

void say_address(uint64_t address)
{
    say("0x");
    say_digits(address, 16);
}

void say_range(uint64_t base, uint64_t end)
{
    say_address(base);
    say(" to ");
    say_address(end);
}

void end(uint8_t number)
{
    out(EXIT_PORT, number);
    for (;;)
        __asm__ volatile("cli; hlt");
}
