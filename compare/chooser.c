// The receiver's list, then requests, a line each; prints for each the number, the answer, and on 0 the octets of the best message.
#include "lines.h"

int main(void)
{
    prepare_tables();
    answer_requests(choose);
    return 0;
}
