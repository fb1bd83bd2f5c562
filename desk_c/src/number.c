/* Reads numbers in decimal. */
#include "number.h"

/* A number with a digit put to its end; UINT64_MAX where that is too great. */
static uint64_t with_digit(uint64_t number, uint8_t digit)
{
    return number > (UINT64_MAX - digit) / 10 ? UINT64_MAX : number * 10 + digit;
}

/* Reads digits, one or more, as a number; one above UINT64_MAX is read as UINT64_MAX. Answers false for other bytes. */
bool number_read(const uint8_t *digits, size_t length, uint64_t *number)
{
    *number = 0;
    for (size_t i = 0; i < length; i++) {
        if (digits[i] < '0' || digits[i] > '9')
            return false;
        *number = with_digit(*number, (uint8_t)(digits[i] - '0'));
    }
    return length > 0;
}
