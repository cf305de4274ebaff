/* dotcheck as a C program: its status is 0, or 1 where a read or a write failed. The function is crates/ticket_io_c's: link libticket_io.a. */
#include <stdint.h>

uint32_t krakvinge_dotcheck(void);

int main(void) {
    return (int)krakvinge_dotcheck();
}
